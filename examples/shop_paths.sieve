# What is known of a shop's transactions before any run: `compile` prints a line for each path, and below it what decides
# whether a run along it wants the one order. Stock that is added is local, stock that is taken is ordered, a new price is
# local from 1 on, and two members of one nickname are only kept apart in the one order.
@AUSET create table item (id int, stock int @NUMDELTA, price int @LWW,
  primary key (id), check (stock >= 0), check (price >= 1));
@AUSET create table purchase (id int, state text @LWW, primary key (id), check (state in ('open', 'paid')));
@AUSET create table member (id int, nickname text @LWW, primary key (id), unique (nickname));
txn restock(k: int, n: int) { if n < 0 { abort 1; } update item[k] set stock = old.stock + n; }
txn buy(k: int, n: int) { if n <= 0 { abort 1; } update item[k] set stock = old.stock - n; }
txn reprice(k: int, p: int) { update item[k] set price = p; }
txn pay(k: int) { update purchase[k] set state = 'paid'; }
txn mark(k: int, s: text) { update purchase[k] set state = s; }
txn join(k: int, s: text) { insert member (k, s); }
txn look(k: int) { get r = item[k]; reply r.stock; }
