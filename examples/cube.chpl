// A cube of points: how many steps each is from the middle, and how many points are so far away.
// Shows three dimensions: a plane is printed as lines, and between planes stands an empty line.
// Try n=2.
config const n = 1;
const cube = {-n..n, -n..n, -n..n};
var steps: [cube] int;
forall (i, j, k) in cube {
  var far = 0;
  if i < 0 then far -= i; else far += i;
  if j < 0 then far -= j; else far += j;
  if k < 0 then far -= k; else far += k;
  steps[i, j, k] = far;
}
writeln(steps);

var points: [0..3 * n] int;
for t in cube do points[steps[t]] += 1;
writeln();
for far in points.domain do writeln(far, ": ", points[far]);
