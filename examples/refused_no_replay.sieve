# `replay` wants a replay: this document ends where one should stand.
@UOSET create table acc (id int, n int @NUMDELTA, primary key (id));
txn add(k: int, n: int) { update acc[k] set n = old.n + n; }
%% init acc(1, 10);
