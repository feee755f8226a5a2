# A forum where no two people have one nickname. A new nickname is red (`unique 1`), since another site may give the same
# one at the same time; writing a post is blue.
# Look at 'moon', which both sites want: site 1 is behind as long as it hasn't got the other's packet, and then refuses.
@AUSET create table person (id int, nick text @LWW, posts int @NUMDELTA, primary key (id), unique (nick));

txn join(k: int, nick: text) { insert person (k, nick, 0); }
txn rename(k: int, nick: text) { update person[k] set nick = nick; }
txn post(k: int) { update person[k] set posts = old.posts + 1; }

%% init person(1, 'ada', 0); person(2, 'bob', 0);

%% replay sites=2
ask 1 rename(1, 'moon');
ask 2 rename(2, 'moon');
order 2;
order 1;
ask 1 rename(1, 'moon');
order 1;
deliver 1 red 0;
ask 1 rename(1, 'moon');

# While a session's new nickname waits for its place, nothing else of the session is answered.
ask 1 rename(1, 'sun');
ask 1 post(1);
order 1;
ask 1 post(1);

# 'ada' is free now, and site 2 knows it as soon as it has caught up.
ask 2 join(3, 'ada');
catch 2;
ask 2 join(3, 'ada');
order 2;
ask 2 join(3, 'eve');
order 2;

catch 1;
show 1 person;
show 2 person;
