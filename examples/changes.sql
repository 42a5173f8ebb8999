setup
-- INSERT, UPDATE and DELETE: a statement is done whole, or refused and changes nothing.
CREATE TABLE account (id INT PRIMARY KEY, owner TEXT(10), cents BIGINT);

session 1
INSERT INTO account VALUES (1, 'ann', 500), (2, 'bob', 70), (3, 'cy', 0);
INSERT INTO account VALUES (4, 'dee', 1), (2, 'eve', 1);
SELECT COUNT(*) FROM account;
UPDATE account SET cents = cents + 10 - 3, owner = 'anna' WHERE id = 1;
UPDATE account SET cents = cents + 9223372036854775807;
DELETE FROM account WHERE cents = 0;
SELECT * FROM account;
