// The primes up to n: the odd divisors of a number are tried together.
// Shows the reduce intent `&&`, whose variable tells whether none divides the number.
// Try n=100.
config const n = 50;
var count = 0;
for p in 2..n {
  var prime = p == 2 || p % 2 == 1;
  forall d in 3..<p by 2 with (&& reduce prime) do prime reduce= p % d != 0;
  if prime {
    write(p, " ");
    count += 1;
  }
}
writeln();
writeln(count, " primes");
