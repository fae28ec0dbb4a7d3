// One plane, cut in three ways: in blocks, dealt out one after another, and in blocks that go round.
// Shows the three maps, and that arrays by different ones are read from each other; what is written hangs on none of them.
// Try --locales 4 --grid2 2x2.
use BlockDist, CyclicDist, BlockCycDist;

config const n = 8;
const space = {1..n, 1..n};
const blocks = space dmapped new blockDist(boundingBox=space);
const round = cyclicDist.createDomain(space);
const both = space dmapped new blockCycDist(startIdx=space.lowBound, blocksize=(2, 3));
var A: [blocks] int;
var B: [round] int;
var C: [both] int;
forall (i, j) in blocks do A[i, j] = i;
forall t in round do B[t] = A[t] * 10;
forall t in both do C[t] = B[t] + A[t];
writeln(+ reduce A, " ", + reduce B, " ", + reduce C);
