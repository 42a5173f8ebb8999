setup
-- The sessions run in the order of their numbers, one block after the other.
CREATE TABLE counter (id INT PRIMARY KEY, n INT);
INSERT INTO counter VALUES (0, 0);

session 1
UPDATE counter SET n = n + 1;
SELECT n FROM counter;

session 2
UPDATE counter SET n = n + 10;
SELECT n FROM counter;

session 3
SELECT n FROM counter;
