setup
CREATE TABLE item (id INT PRIMARY KEY, name VARCHAR(20), stock INT);
CREATE TABLE sale (id INT PRIMARY KEY, item INT, pieces INT);
INSERT INTO item VALUES (1, 'tea', 12), (2, 'salt', 40), (3, 'it''s new', 0);

session 1
-- A sale takes pieces out of stock and is noted, both or neither.
BEGIN;
UPDATE item SET stock = stock - 5 WHERE id = 1;
INSERT INTO sale VALUES (100, 1, 5);
COMMIT;
SELECT name, stock FROM item WHERE stock > 0 ORDER BY id DESC;
SELECT COUNT(*), SUM(pieces) FROM sale;
