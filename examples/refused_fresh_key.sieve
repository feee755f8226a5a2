@AUSET create table ticket (id int @FRESH, seats int @NUMDELTA, primary key (id));

%% init ticket(999999999999, 1); ticket(1000000000000, 2);
