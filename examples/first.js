// an object that takes from another what it has not
let point = { x: 3, y: 4 }
let moved = { __proto__: point, x: 10 }
moved.y += 1
print(moved.x, moved.y, point.y)
delete moved.x // no semicolon
print(moved.x, "x" in moved, typeof moved.z)
try { moved.z.x = 1 } catch (e) { print(e.name + ": " + e.message) }
