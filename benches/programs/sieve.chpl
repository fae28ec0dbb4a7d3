// The primes up to two million, by an array of truth values.
const n = 2000000;
var left: [2..n] bool = true;
var p = 2;
while p * p <= n {
  if left[p] {
    const multiples = p * p..n by p;
    forall m in multiples do left[m] = false;
  }
  p += 1;
}
var count = 0;
for k in 2..n do if left[k] then count += 1;
writeln(count);
