// The product of two matrices, a turn for each element, with a loop in it over the row and the column.
// Shows elements that a forall adds to at its own index, and a trace by a plain loop. `matrix.chpl` does it by reductions.
// Try n=20.
config const n = 4;
const square = {1..n, 1..n};
var A: [square] int;
var B: [square] int;
var C: [square] int;
forall (i, j) in square {
  A[i, j] = i + j;
  B[i, j] = i - j;
}
forall (i, j) in square do
  for k in 1..n do C[i, j] += A[i, k] * B[k, j];
writeln(C);

var trace = 0;
for i in 1..n do trace += C[i, i];
writeln("trace ", trace);
