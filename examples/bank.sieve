# A bank with two branches, where no balance may go below -100, whatever both branches do at the same time.
# Paying in is blue, since it leads no balance below the floor. What takes money is red, and its label says which change
# of the run does: `0 2` is the second change of the body, `2 1` the first change of the loop's second turn.
# Look at the transfers: the first leaves -90; the second is refused until the 30 that branch 1 took in have come.
@UOSET create table account (id int, owner text @LWW, balance int @NUMDELTA,
  primary key (id), check (balance >= -100));

txn deposit(k: int, n: int) { if n <= 0 { abort 1; } update account[k] set balance = old.balance + n; }
txn transfer(source: int, target: int, n: int) {
  if n <= 0 { abort 1; }
  update account[target] set balance = old.balance + n;
  update account[source] set balance = old.balance - n;
}
txn book(k: int, ns: ints) { each n in ns { update account[k] set balance = old.balance + n; } }
txn interest(n: int) {
  if n <= 0 { abort 1; }
  let count = 0;
  for a in account where a.balance > 0 {
    update account[a.id] set balance = old.balance + n;
    count = count + 1;
  }
  reply count;
}

%% init account(1, 'ada', 50); account(2, 'bob', 0); account(3, 'cem', 20);

%% replay sites=2
ask 1 deposit(1, 30);
ask 2 transfer(1, 2, 140);
order 2;
ask 2 transfer(1, 2, 20);
deliver 2 blue 1 0;
ask 2 transfer(1, 2, 20);
order 2;

# The second transfer comes to branch 1 before the first: it waits there.
deliver 1 red 1;
deliver 1 red 0;
settle 1;

ask 1 book(3, [5, -8, 4]);
order 1;
ask 1 interest(10);
ask 1 deposit(4, 5);
ask 1 deposit(1, 0);

catch 2;
show 1 account;
show 2 account;
cut 2;
