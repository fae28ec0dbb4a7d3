// Life on a board whose edges meet: a glider goes down and right, and comes back at the other side.
// Shows neighbours by remainders, an inner loop over a small plane, and an assignment of a whole array.
// Try gens=20.
config const n = 8;
config const gens = 12;
const board = {0..#n, 0..#n};
var now: [board] int;
var next: [board] int;
now[1, 2] = 1;
now[2, 3] = 1;
now[3, 1] = 1;
now[3, 2] = 1;
now[3, 3] = 1;

for g in 1..gens {
  forall (i, j) in board {
    var around = -now[i, j];
    for (di, dj) in {-1..1, -1..1} do
      around += now[(i + di + n) % n, (j + dj + n) % n];
    next[i, j] = 0;
    if around == 3 || (now[i, j] == 1 && around == 2) then next[i, j] = 1;
  }
  now = next;
}
for i in board.dim(0) {
  for j in board.dim(1) do
    if now[i, j] == 1 then write("#"); else write(".");
  writeln();
}
