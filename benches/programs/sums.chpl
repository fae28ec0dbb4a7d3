// The sum of a million ints in an array, twenty times.
const n = 1000000;
var A: [1..n] int;
forall i in 1..n do A[i] = i % 1000;
var sum = 0;
for k in 1..20 {
  A[k] = -k;
  sum += + reduce A;
}
writeln(sum);
