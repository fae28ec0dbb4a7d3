// Twice each of a million ints and one, put into another array, twenty times.
const n = 1000000;
const D = {1..n};
var A: [D] int;
var B: [D] int;
forall i in 1..n do A[i] = i % 1000;
for k in 1..20 {
  A[k] = -k;
  B = A * 2 + 1;
}
writeln(B[1], ' ', B[20], ' ', B[n]);
