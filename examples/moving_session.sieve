# Session 1 writes a note at site 1 and goes on to sites 2, 3 and back. It is answered only where all that it has seen has
# come: until then an ask prints `short` and the first packet that is missing, and counts for nothing.
# Look at the first two reads of note 1 at site 2: session 1 must wait for its own note, session 2 has seen nothing and
# is told that there is none. Pinning is red by `plain`, since the table of pins has no annotation.
@AUSET create table note (id int, body text @LWW, primary key (id));
create table pin (place int, note int, primary key (place));

txn write(k: int, body: text) { insert note (k, body); }
txn edit(k: int, body: text) { update note[k] set body = body; }
txn read(k: int) { get n = note[k]; reply n.body; }
txn pin(place: int, k: int) { insert pin (place, k); }

%% replay sites=3
ask 1 write(1, 'milk');
move 1 2;
ask 1 read(1);
ask 2 read(1);
deliver 2 blue 1 0;
ask 1 read(1);
ask 1 edit(1, 'milk and tea');

# A session doesn't move while an operation of it waits for its place.
ask 1 pin(1, 1);
move 1 3;
order 1;
move 1 3;

# Three packets come to site 3 in the wrong order; the one that can be applied first is settled first.
ask 1 read(1);
deliver 3 red 0;
deliver 3 blue 2 0;
deliver 3 blue 1 0;
settle 3;
ask 1 read(1);
settle 3;
ask 1 read(1);

move 1 1;
ask 1 read(1);
catch 1;
ask 1 read(1);
show 1 pin;
cut 1;
