#!/usr/bin/env hcjs
/* Comments, line breaks, parentheses, no semicolons where a line ends,
   and a number in base 16. */
let
  o = {}          // the object

o . a = (0x7)
print(o.a)
print(
  (o).b           /* nothing was stored here */
)
