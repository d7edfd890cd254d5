"use strict";
// what a name that cannot be read or written throws
try { early; } catch (e) { print(e.name + ": " + e.message); }
let early = 1;
const fixed = 2;
try { fixed = 3; } catch (e) { print(e.message); } finally { print(fixed); }
try { unknown = 4; } catch (e) { print(e.message, typeof unknown); }
try { early = 9007199254740991 + early; } catch (e) { print(e.name, e.message); }
print(early);
