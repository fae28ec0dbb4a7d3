// A product of powers, over a range that goes down.
// Shows the reduce intent `*`, which goes on from what the variable had, and a minus.
// Try it with --dump, which tells what the variables are at the end.
var p: int = 3;
const two = 2;
forall i in 1..5 by -1 with (* reduce p) do p *= two;
writeln(p, -p * (1 - two));
