// The sum of twice each of a million ints and one, twenty times.
const n = 1000000;
var A: [1..n] int;
forall i in 1..n do A[i] = i % 1000;
var sum = 0;
for k in 1..20 {
  A[k] = -k;
  sum += + reduce (A * 2 + 1);
}
writeln(sum);
