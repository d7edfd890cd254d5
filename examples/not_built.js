let o = { a: 7 };
print(o.a);
print(o["a"], [o.a]);
