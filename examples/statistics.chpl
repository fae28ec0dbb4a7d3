// What can be said of a list of numbers as a whole: least and greatest, where they stand, mean, and what holds of all or of one.
// Shows all kinds of reductions.
// Try n=20.
config const n = 12;
const places = {1..n};
var number: [places] int;
var place: [places] int;
forall i in places {
  number[i] = i * i % 17 - 3;
  place[i] = i;
}
writeln("numbers ", number);

const least = min reduce number;
const greatest = max reduce number;
const sum = + reduce number;
const mean = sum / places.size;
writeln("least ", least, ", greatest ", greatest, ", sum ", sum, ", mean ", mean);

// a place counts as far behind the end where its number isn't the one looked for, so that the least place is the first with it
writeln("at ", min reduce (place + n * (number - least)), " and ", min reduce (place + n * (greatest - number)));

const squares = + reduce ((number - mean) * (number - mean));
writeln("sum of squares about the mean ", squares, ", variance ", squares / n);
writeln("all above 0 ", && reduce (number > 0), ", one below 0 ", || reduce (number < 0));
