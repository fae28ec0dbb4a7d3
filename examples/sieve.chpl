// The sieve: of the numbers up to n each that is left is a prime, and its multiples are struck out.
// Shows an array of truth values, and a forall by a stride that is a variable.
// Try n=100.
config const n = 30;
var left: [2..n] bool = true;

var p = 2;
while p * p <= n {
  if left[p] {
    const multiples = p * p..n by p;
    forall m in multiples do left[m] = false;
  }
  p += 1;
}

var count = 0;
for k in left.domain do
  if left[k] {
    write(k, " ");
    count += 1;
  }
writeln();
writeln(count, " primes");
