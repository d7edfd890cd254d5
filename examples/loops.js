let odd = 0;
for (let i = 1; i <= 10; i++) {
  if (i % 2 === 0) continue;
  odd += i;
}
print("odd", odd);

// a list of objects, the last one first
let list = null;
let i = 0;
while (true) {
  if (i === 3) break;
  list = { value: i * i, next: list };
  i++;
}
for (let at = list; at !== null; at = at.next) print(at.value);
