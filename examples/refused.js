let o = {};
o.a = 07;
print(o.a);
