// How many numbers fall into each of ten buckets.
// Shows counting without a race: a turn for each bucket, which looks at all numbers, in place of one for each number.
// Try n=1000 buckets=5.
config const n = 100;
config const buckets = 10;
const all = {0..#buckets};
const places = {1..n};
var number: [places] int;
var count: [all] int;
forall i in places do number[i] = (i * 7919) % 100;
forall b in all do
  for i in places do if number[i] * buckets / 100 == b then count[b] += 1;
writeln(count);
writeln(+ reduce count);
