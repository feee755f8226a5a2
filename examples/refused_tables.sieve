@AUSET create table item (
  id int,
  stock int @NUMDELTA,
  id text,
  primary key (id)
);
