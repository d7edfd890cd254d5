"use strict";
// a constructor, and a method that all of its objects share
function Point(x, y) {
  this.x = x;
  this.y = y;
}
let move = function (by) { return new Point(this.x + by, this.y); };
Point.prototype.move = move;
let moved = new Point(3, 4).move(7);
print(moved.x, moved.y, moved instanceof Point);

// an accessor, and the name that a function gets where it stands
let circle = {
  radius: 2,
  get width() { return 2 * this.radius; },
  set width(w) { this.radius = w % 100; }
};
circle.width = 105;
print(circle.width, move.name, Point.length);

// an error with a cause, and a finally behind each return
let tries = 0;
function even(n) {
  if (n % 2 === 1) throw new RangeError("odd", { cause: n });
  return n;
}
function tried(n) {
  try { return "even " + even(n); }
  catch (e) { return e.toString() + " " + e.cause; }
  finally { tries++; }
}
print(tried(4));
print(tried(5));
print(tries);

function fibonacci(n) { return n < 2 ? n : fibonacci(n - 1) + fibonacci(n - 2); }
print(fibonacci(15));
