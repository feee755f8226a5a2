# A counter near the greatest number of 64 bits. What a request adds must fit, but what both sites add is always added.
# Look at the packets: one isn't published yet, one comes too early and is settled later, one comes twice.
@UOSET create table acc (id int, n int @NUMDELTA, primary key (id));
txn add(k: int, n: int) { update acc[k] set n = old.n + n; }
%% init acc(1, 9223372036854775806);
%% replay sites=2
ask 1 add(1, 1); ask 1 add(1, 1); ask 2 add(2, 1); deliver 2 blue 1 1; ask 1 add(1, -1);
deliver 2 blue 1 1; deliver 2 blue 1 0; deliver 2 blue 1 0; show 2 acc;
settle 2; ask 1 add(1, 1); ask 2 add(1, 1); deliver 1 blue 2 0; deliver 2 blue 1 2;
show 1 acc; show 2 acc; ask 1 add(1, -1);
