-- The tables of the example. The origin adds the trigger and the unique index of origin.sql; replicas have neither.
CREATE TABLE client (id INTEGER PRIMARY KEY, name TEXT NOT NULL, email TEXT);
CREATE TABLE item (name TEXT NOT NULL PRIMARY KEY, price INTEGER NOT NULL, photo BLOB);
CREATE TABLE basket (client INTEGER, item TEXT, count INTEGER NOT NULL, PRIMARY KEY (client, item)) WITHOUT ROWID;
CREATE TABLE sold (item TEXT NOT NULL PRIMARY KEY, count INTEGER NOT NULL);
CREATE TABLE history (number INTEGER PRIMARY KEY, baskets INTEGER NOT NULL);
