// A million ints are printed in one line.
const n = 1000000;
var A: [1..n] int;
forall i in 1..n do A[i] = i * 7 % 100000;
writeln(A);
