# A shop: items, orders that are open or paid, and the lines of orders.
@AUSET create table item (id int, stock int @NUMDELTA, price int @LWW, label text @LWW,
  primary key (id), check (stock >= 0), check (price >= 1), unique (label));
@ARSET create table purchase (id int, state text @LWW, low int @LWW, high int @LWW,
  primary key (id), check (state in ('open', 'paid')), check (low <= high + 3));
create table line (purchase int, item int, count int, primary key (purchase, item));
create table gift (id int, item int, given_in int, primary key (id),
  foreign key (item) references item (id), foreign key (given_in) references purchase (id));
txn buy(k: int, n: int) { if n <= 0 { abort 1; } update item[k] set stock = old.stock - n; }
txn spread(k: int, ns: ints) { each n in ns { update item[k] set stock = old.stock + n; } }
txn name(k: int, label: text) { update item[k] set label = label; }
%% init
item(7, 10, 3, 'cup');
gift(1, 8, 1);
purchase(1, 'open', 0, 0);
