# Rows are added and changed; sites add to the stock, and the last price wins.
@AUSET create table item (
  id int,
  stock int @NUMDELTA,
  price int @LWW,
  primary key (id)
);
# Rows are only added; the key has two columns.
@AOSET create table line (ord int, item int, primary key (ord, item));
# Rows are only changed.
@UOSET create table account (id int, balance int @NUMDELTA, primary key (id));
# Rows are added, changed and removed.
@ARSET create table tag (id int, name text @LWW, primary key (id));
# Without an annotation every operation waits for its turn.
create table setting (id int, value text, primary key (id));
