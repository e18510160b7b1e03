CREATE TABLE client (id INTEGER PRIMARY KEY, name TEXT NOT NULL, note TEXT);
CREATE TABLE item (code TEXT, colour TEXT, price INTEGER, photo BLOB, PRIMARY KEY (colour, code));
CREATE TABLE basket (client INTEGER, item TEXT, count INTEGER, PRIMARY KEY (client, item)) WITHOUT ROWID;
INSERT INTO client VALUES (1, 'Ada', NULL), (2, 'Böse', 'pays late');
INSERT INTO item VALUES ('cup', 'red', 250, x'00ff'), ('cup', 'blue', -1, NULL);
INSERT INTO basket VALUES (1, 'cup', 3), (2, 'cup', 1);
