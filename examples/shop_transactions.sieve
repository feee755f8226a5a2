# A shop. Each statement of a transaction stands here at least once.
@AUSET create table item (id int, stock int @NUMDELTA, price int @LWW, primary key (id));
@AOSET create table line (ord int, item int, primary key (ord, item));
@ARSET create table tag (id int, name text @LWW, primary key (id));

txn add(k: int, n: int, p: int) { insert item (k, n, p); }
txn put(o: int, k: int) { get r = item[k]; insert line (o, k); reply r.price; }
txn buy(k: int, n: int) {
  get r = item[k];
  if n <= 0 or r.stock < n { abort 2; }
  update item[k] set stock = old.stock - n;
  reply n * r.price;
}
txn reprice(k: int, p: int) { if not p >= 1 { abort 1; } else { update item[k] set price = p; } }
txn spread(k: int, ns: ints) { each n in ns { update item[k] set stock = old.stock + n; } }
txn few(m: int) { let count = 0; for r in item where r.stock < m { count = count + 1; } reply count; }
txn retag(k: int, name: text) { if [k < 0 or k > 99] and name != '' { abort 3; } update tag[k] set name = name; }
txn drop(k: int) { remove tag[k]; }
