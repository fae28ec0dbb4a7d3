// Life on a board without an edge's outside: a glider, which moves by one point down and right in four generations.
// Shows arrays of truth values, and a border around the board that stays empty.
// Try turns=8.
config const turns = 4;
const board = {1..8, 1..8};
const around = {0..9, 0..9};
var alive: [around] bool;
alive[1, 2] = true;
alive[2, 3] = true;
alive[3, 1] = true;
alive[3, 2] = true;
alive[3, 3] = true;

for turn in 1..turns {
  var next: [around] bool;
  forall (i, j) in board {
    var count = 0;
    for (k, l) in {i - 1..i + 1, j - 1..j + 1} do
      if alive[k, l] && !(k == i && l == j) then count += 1;
    next[i, j] = count == 3 || (count == 2 && alive[i, j]);
  }
  forall t in board do alive[t] = next[t];
}

for i in board.dim(0) {
  for j in board.dim(1) do
    if alive[i, j] then write("#"); else write(".");
  writeln();
}
