// A stencil of three points over a line of a million ints, twenty times.
const n = 1000000;
var A: [0..n + 1] int;
var B: [0..n + 1] int;
forall i in 1..n do A[i] = i % 1000;
for step in 1..20 {
  A[step] = -step;
  forall i in 1..n do B[i] = A[i - 1] + A[i] + A[i + 1];
}
writeln(B[1], ' ', B[n], ' ', B[n / 2]);
