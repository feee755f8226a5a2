# Each kind of step, each line that a step may print, and each reply. There is room for one row more (rows=2) and for
# three changes (changes=3), so that `full` can be seen.
@AUSET create table item (id int, stock int @NUMDELTA, primary key (id), check (stock >= 0));

txn add(k: int, n: int) { insert item (k, n); }
txn restock(k: int, n: int) { update item[k] set stock = old.stock + n; }
txn buy(k: int, n: int) { if n <= 0 { abort 7; } update item[k] set stock = old.stock - n; }
txn look(k: int) { get r = item[k]; reply r.stock; }
txn twice(ns: ints) { each n in ns { reply n; reply n; } }

%% init item(1, 5);

%% replay sites=2 rows=2 changes=3

# Every reply but `full`.
ask 1 look(1);
ask 1 look(2);
ask 1 buy(1, 0);
ask 1 buy(1, 6);
ask 1 add(1, 1);
ask 1 restock(1, 9223372036854775807);
ask 1 twice([1, -2]);
ask 1 twice([1, 2, 3, 4, 5, 6, 7, 8, 9]);

# One insert fills the rows, and three changes the changes. A purchase waits for its place in the order.
ask 1 add(2, 3);
ask 2 add(3, 4);
ask 1 restock(1, 1);
ask 2 buy(1, 2);
ask 2 buy(1, 2);
move 2 1;
order 2;
order 2;
ask 1 restock(1, 1);

# Packets come early, late, twice, or before they are published. An early one is kept, and applied by `settle`.
deliver 2 blue 1 1;
deliver 2 blue 1 2;
settle 2;
deliver 2 blue 1 0;
deliver 2 blue 1 0;
settle 2;
settle 2;

# Site 1 doesn't have the red packet yet: its next purchase is behind, and a session that comes from site 2 must wait.
ask 1 buy(1, 1);
order 1;
move 2 1;
ask 2 look(1);
catch 1;
ask 2 look(1);
ask 1 buy(1, 1);
order 1;

show 1 item;
cut 1;
cut 2;
