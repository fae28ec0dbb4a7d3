// The product of the numbers from 1 to 20, which just fits into 64 bits.
// Shows the reduce intent `*`.
// Try n=21, which is too large and wraps around.
config const n = 20;
var product = 1;
forall i in 1..n with (* reduce product) do product *= i;
writeln(product);
