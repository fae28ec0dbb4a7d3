// The mean of the four points beside each, and the copy back, over a plane of 1000 by 1000 ints, ten times.
const n = 1000;
const inside = {1..n, 1..n};
var A: [0..n + 1, 0..n + 1] int;
var B: [0..n + 1, 0..n + 1] int;
forall (i, j) in inside do A[i, j] = (i * 7 + j * 3) % 1000;
for step in 1..10 {
  forall (i, j) in inside do B[i, j] = (A[i - 1, j] + A[i + 1, j] + A[i, j - 1] + A[i, j + 1]) / 4;
  forall (i, j) in inside do A[i, j] = B[i, j];
}
writeln(A[1, 1], ' ', A[n, n], ' ', A[5, 6]);
