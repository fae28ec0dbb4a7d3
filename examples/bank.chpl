// Accounts, to each of which every eighth payment goes.
// Shows a scatter turned round: where a turn would write another's element, each account looks for its own payments.
// Try accounts=5 n=1000.
config const n = 100;
config const accounts = 8;
const all = {0..#accounts};
var balance: [all] int = 100;
forall a in all do
  for i in 1..n do if i % accounts == a then balance[a] += i;
writeln(balance);
writeln("total ", + reduce balance, ", least ", min reduce balance);
