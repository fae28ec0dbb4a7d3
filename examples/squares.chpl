// The sum of the squares of the odd numbers up to 7.
// Shows a forall over a range with a stride, and the reduce intent `+`.
// Try --budget 3: the loop has four turns.
var s: int;
forall i in 1..8 by 2 with (+ reduce s) do s += i * i;
writeln(s);
