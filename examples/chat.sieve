# A chat at three sites. Rooms can be closed, so a message needs the order (`child 1`: its room may be closed elsewhere),
# and so does closing (`parent 1`: a message may come elsewhere). Messages stay, so what refers to them is blue: that
# somebody read one, or likes one.
# Look at room 2, which is closed while site 2 writes into it; and at site 3, where "read" comes before the message.
@ARSET create table room (id int, name text @LWW, primary key (id));
@AUSET create table message (id int @FRESH, room int @LWW, body text @LWW, likes int @NUMDELTA, primary key (id),
  foreign key (room) references room (id));
@AOSET create table reader (message int, person int, primary key (message, person),
  foreign key (message) references message (id));

txn open(k: int, name: text) { insert room (k, name); }
txn close(k: int) { remove room[k]; }
txn post(room: int, body: text) { fresh m = message (room, body, 0); reply m; }
txn seen(m: int, person: int) { insert reader (m, person); }
txn like(m: int) { update message[m] set likes = old.likes + 1; }

%% init room(1, 'lobby'); room(2, 'garden');

%% replay sites=3
ask 1 post(1, 'hi');
order 1;
deliver 2 red 0;
ask 2 seen(1000000000000, 20);

deliver 3 blue 2 0;
ask 3 like(1000000000000);
deliver 3 red 0;
settle 3;
ask 3 like(1000000000000);
ask 1 like(1000000000000);

# Room 2 is empty at site 1, and open at site 2.
ask 1 close(2);
ask 2 post(2, 'anyone?');
order 1;
order 2;
catch 2;
ask 2 post(2, 'anyone?');
ask 2 close(1);

# A closed room is opened again. Site 3 doesn't know the new one yet.
ask 1 open(2, 'yard');
ask 2 open(3, 'hall');
ask 3 post(3, 'first');

catch 1;
catch 3;
show 3 room;
show 3 message;
show 1 reader;
cut 3;
