@AUSET create table item (id int, stock int @NUMDELTA, primary key (id));
txn drop(k: int) { remove item[k]; }
