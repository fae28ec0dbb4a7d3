// How many steps each number takes to 1, where an even number is halved and an odd one tripled, plus one.
// Shows while and if, with variables that a turn of a plain loop declares.
// Try last=30.
config const last = 9;
var longest = 0;
for start in 1..last {
  var n = start;
  var steps = 0;
  while n != 1 {
    if n % 2 == 0 then n /= 2; else n = 3 * n + 1;
    steps += 1;
  }
  writeln(start, ": ", steps);
  if steps > longest then longest = steps;
}
writeln("longest: ", longest);
