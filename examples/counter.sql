-- examples/counter.db was made by: sqlite3 counter.db < counter.sql
PRAGMA page_size=512;
PRAGMA secure_delete=OFF;
CREATE TABLE counter(name TEXT, value INTEGER, note TEXT);
INSERT INTO counter VALUES('starts', 17, NULL);
INSERT INTO counter VALUES('frames', 90210, 'since the last service');
INSERT INTO counter VALUES('faults', -3, replace(hex(zeroblob(150)), '00', 'low voltage; '));
CREATE INDEX counter_name ON counter(name);
CREATE TABLE reading(at INTEGER PRIMARY KEY, level REAL, comment TEXT);
WITH RECURSIVE c(x) AS (SELECT 1 UNION ALL SELECT x+1 FROM c WHERE x<60)
    INSERT INTO reading SELECT x*10, x/8.0, printf('reading number %d of the day', x) FROM c;
CREATE TABLE spare(a);
INSERT INTO spare VALUES(zeroblob(1500));
DROP TABLE spare;
