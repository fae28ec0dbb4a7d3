// The product of two vectors that are cut into blocks, in two ways.
// Shows a reduction of an expression over whole arrays, and the same by a reduce intent.
// Try n=1000000 --locales 4.
use BlockDist;

config const n = 1000;
const D = {1..n} dmapped new blockDist({1..n});
var X: [D] int = 2;
var Y: [D] int = 3;
forall i in D do X[i] += i;
writeln(+ reduce (X * Y));

var sum = 0;
forall i in D with (+ reduce sum) do sum += X[i] * Y[i];
writeln(sum);
