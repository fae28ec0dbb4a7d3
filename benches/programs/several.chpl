// Bodies of several statements over a million ints, twenty times: two arrays are written and an int is folded, one of them by both branches of an `if`.
const n = 1000000;
const D = {1..n};
var A: [D] int;
var B: [D] int;
var C: [D] int;
var s = 0;
forall i in D do A[i] = i * 7 % 1000;
for k in 1..20 {
  forall i in D with (+ reduce s) {
    B[i] = A[i] * 3 + k;
    if B[i] % 2 == 0 then C[i] = B[i] - k; else C[i] = B[i] * 2;
    s += C[i] * i;
  }
}
writeln(s, ' ', B[n], ' ', C[1]);
