// In how many ways n queens stand on a board of n by n so that none attacks another.
// Shows a search that goes back, without a procedure: an array keeps what is open, a row of the board for each call.
// Try n=8, which has 92 ways.
config const n = 6;
var column: [1..n + 1] int;
var row = 1;
var ways = 0;

while row > 0 {
  column[row] += 1;
  if column[row] > n {
    column[row] = 0;
    row -= 1;
  } else {
    var free = true;
    for r in 1..row - 1 {
      const d = column[r] - column[row];
      if d == 0 || d == row - r || -d == row - r then free = false;
    }
    if free {
      if row == n then ways += 1;
      else { row += 1; column[row] = 0; }
    }
  }
}
writeln(ways);
