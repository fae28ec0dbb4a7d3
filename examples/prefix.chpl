// Sums of all beginnings of a list, by doubling: in each step a number takes along the one that stands so far before it.
// Shows a domain variable, which grows; the elements that were there stay.
// Try n=16.
config const n = 8;
var places = {1..1};
var sum: [places] int = 1;
while places.size < n {
  places = {1..places.size + 1};
  sum[places.size] = places.size;
}
writeln("numbers: ", sum);

var far = 1;
while far < n {
  var old: [places] int = sum;
  forall i in places do
    if i > far then sum[i] = old[i] + old[i - far];
  far *= 2;
}
writeln("sums:    ", sum);
