setup
-- BEGIN, COMMIT, ROLLBACK. A block that ends with its section is rolled back.
CREATE TABLE account (id INT PRIMARY KEY, cents INT);
INSERT INTO account VALUES (1, 100), (2, 100);

session 1
BEGIN;
UPDATE account SET cents = cents - 30 WHERE id = 1;
UPDATE account SET cents = cents + 30 WHERE id = 2;
COMMIT;
BEGIN;
DELETE FROM account;
SELECT COUNT(*) FROM account;
ROLLBACK;
SELECT * FROM account;
BEGIN;
-- This one is refused, and the block continues.
INSERT INTO account VALUES (1, 0);
INSERT INTO account VALUES (3, 0);
COMMIT;
BEGIN;
DELETE FROM account;

session 2
SELECT * FROM account;
