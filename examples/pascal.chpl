// The triangle of Pascal: each number is the sum of the two above it.
// Shows a domain variable: a row grows by one place, and keeps what it had.
// Try n=12.
config const n = 6;
var places = {0..0};
var row: [places] int = 1;
for k in 1..n {
  writeln(row);
  places = {0..k};
  var old: [places] int = row;
  forall i in places do if i > 0 then row[i] = old[i] + old[i - 1];
}
