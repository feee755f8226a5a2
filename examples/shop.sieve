# A shop that sells at two sites, with ten cups in stock.
# Look at the two purchases of six: each site has ten, but both take their places in one order. The second one comes
# too late: site 2 is behind, catches up, and then refuses by invariant 1. New prices and new stock need no order.
@AUSET create table item (id int, stock int @NUMDELTA, price int @LWW,
  primary key (id), check (stock >= 0), check (price >= 1));

txn buy(k: int, n: int) { if n <= 0 { abort 1; } update item[k] set stock = old.stock - n; }
txn restock(k: int, n: int) { if n < 0 { abort 1; } update item[k] set stock = old.stock + n; }
txn reprice(k: int, p: int) { update item[k] set price = p; }

%% init item(7, 10, 3);

%% replay sites=2
ask 1 buy(7, 6);
ask 2 buy(7, 6);
order 1;
order 2;
catch 2;
ask 2 buy(7, 6);
ask 2 restock(7, 5);
ask 1 reprice(7, 4);
deliver 1 blue 2 0;
deliver 2 blue 1 0;
show 1 item;
show 2 item;
