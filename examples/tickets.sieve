# Two booths sell tickets, each for at most six seats. A ticket draws its key, so no other request makes that ticket and
# selling is blue at both booths at once. Seats added later are red, since the other booth may add some too; seats given
# back are blue.
# Look at the keys: they follow from the session and from how many answers it had, not from the order of the sales.
@AUSET create table ticket (id int @FRESH, seats int @NUMDELTA, primary key (id), check (seats <= 6));
@AOSET create table guest (ticket int, number int, primary key (ticket, number),
  foreign key (ticket) references ticket (id));

txn sell(seats: int, guests: ints) {
  fresh t = ticket (seats);
  each g in guests { insert guest (t, g); }
  reply t;
}
txn add(t: int, n: int) { update ticket[t] set seats = old.seats + n; }

%% init ticket(1, 2); guest(1, 40);

%% replay sites=2
ask 1 sell(2, [11, 12]);
ask 2 sell(4, []);
ask 3 sell(1, [13]);
ask 1 sell(7, []);
ask 1 sell(6, []);

ask 2 add(1000000000064, 2);
order 2;
ask 2 add(1000000000064, -1);

# Booth 1 doesn't have that ticket yet, and can't take a packet that changes it.
ask 1 add(1000000000064, 1);
deliver 1 red 0;
deliver 1 blue 2 0;
settle 1;

deliver 2 blue 1 1;
catch 2;
catch 1;
show 1 ticket;
show 2 guest;
