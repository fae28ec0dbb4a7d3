// The determinant of a matrix, by elimination in whole numbers: each division has no remainder (Bareiss).
// Shows slices of a domain as the part that is left, and a copy of an array from which a forall reads other rows.
// Try n=6.
config const n = 4;
const square = {1..n, 1..n};
var M: [square] int;
forall (i, j) in square {
  M[i, j] = (i * 7 + j * j * 3) % 11;
  if i == j then M[i, j] += 5;
}
writeln(M);

var before = 1;
for k in 1..n - 1 {
  var old: [square] int = M;
  const pivot = M[k, k];
  forall (i, j) in square[k + 1..n, k + 1..n] do
    M[i, j] = (old[i, j] * pivot - old[i, k] * old[k, j]) / before;
  before = pivot;
}
writeln("determinant ", M[n, n]);
