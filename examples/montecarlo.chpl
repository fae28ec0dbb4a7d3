// How many points that look thrown fall into a quarter of a circle: four times their share is near pi.
// Shows a reduce intent over turns that know nothing of each other: each makes its own numbers of its index.
// Try n=100000, or seed=7.
config const n = 10000;
config const seed = 1;
const side = 32768;
const throws = {1..n};
var inside = 0;

forall i in throws with (+ reduce inside) {
  var s = (i * 1566083941 + seed) % 2147483648;
  for k in 1..3 do s = (s * 1103515245 + 12345) % 2147483648;
  const x = s / 65536;
  for k in 1..3 do s = (s * 1103515245 + 12345) % 2147483648;
  const y = s / 65536;
  if x * x + y * y < side * side then inside += 1;
}
writeln(inside, " of ", n, " inside, and ", 4000 * inside / n, " thousandths");
