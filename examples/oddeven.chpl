// Numbers are sorted by swaps of neighbours, of odd and of even pairs in turns.
// Shows a swap without a race: each place looks at its partner in a copy, and takes the lesser or the greater of the two.
// Try n=40.
config const n = 10;
const places = {0..#n};
var A: [places] int;
forall i in places do A[i] = (i * 7 + 3) % n;
writeln(A);

for p in places {
  var old: [places] int = A;
  forall i in places {
    const is_left = (i - p % 2) % 2 == 0;
    if is_left && i + 1 < n {
      if old[i] > old[i + 1] then A[i] = old[i + 1];
    } else if !is_left && i > 0 {
      if old[i - 1] > old[i] then A[i] = old[i - 1];
    }
  }
}
writeln(A);
