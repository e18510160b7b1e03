-- What the origin has beside the tables of schema.sql: the rows to begin with, a unique index, and a trigger.
WITH RECURSIVE n (i) AS (SELECT 1 UNION ALL SELECT i + 1 FROM n WHERE i < 50)
INSERT INTO item SELECT 'item ' || i, 10 * i, zeroblob(50 * i) FROM n;
INSERT INTO sold SELECT name, 0 FROM item;
CREATE UNIQUE INDEX client_email ON client (email);
CREATE TRIGGER sells AFTER INSERT ON basket BEGIN
    UPDATE sold SET count = count + new.count WHERE item = new.item;
END;
