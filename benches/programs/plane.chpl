// A stencil of four points over a plane of 1000 by 1000 ints, ten times.
const n = 1000;
var A: [0..n + 1, 0..n + 1] int;
var B: [0..n + 1, 0..n + 1] int;
forall (i, j) in {1..n, 1..n} do A[i, j] = i + j;
for step in 1..10 {
  A[step, step] = -step;
  forall (i, j) in {1..n, 1..n} do B[i, j] = A[i - 1, j] + A[i + 1, j] + A[i, j - 1] + A[i, j + 1];
}
writeln(B[1, 1], ' ', B[n, n], ' ', B[5, 6]);
