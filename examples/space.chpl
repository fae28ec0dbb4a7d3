// Points of a space that go round the locales in each of its three dimensions.
// Shows a created domain, three names of a loop, how an array of three dimensions is printed, and four reductions.
// Try --locales 8 --grid3 2x2x2.
use CyclicDist;

const points = cyclicDist.createDomain(1..3, 1..3, 1..4);
var A: [points] int;
forall (i, j, k) in points do A[i, j, k] = 100 * i + 10 * j + k;
writeln(A);
writeln(max reduce A, " ", min reduce A, " ", && reduce (A > 0), " ", + reduce (A % 2));
