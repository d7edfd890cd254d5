print("before");
let o = { price: null };
print(o.price.amount);
print("after");
