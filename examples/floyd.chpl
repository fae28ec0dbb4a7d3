// The shortest ways between all pairs of places, by Floyd and Warshall.
// Shows an order that has to be kept (for k), with turns inside it that have none (forall), and an array for what was.
// Try n=7.
use BlockDist;

config const n = 5;
const far = 1000000;
const pairs = {1..n, 1..n} dmapped new blockDist(boundingBox={1..n, 1..n});
var way: [pairs] int = far;
for i in 1..n do way[i, i] = 0;
for i in 1..n - 1 do way[i, i + 1] = i;
way[n, 1] = 3;

for k in 1..n {
  var old: [pairs] int = way;
  forall (i, j) in pairs do
    if old[i, k] + old[k, j] < way[i, j] then way[i, j] = old[i, k] + old[k, j];
}
writeln(way);
writeln("longest ", max reduce way);
