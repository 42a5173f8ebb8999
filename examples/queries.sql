setup
-- What SELECT can say.
CREATE TABLE city (id INT PRIMARY KEY, name TEXT(30), people INT);
INSERT INTO city VALUES (40, 'Bonn', 330), (10, 'Ulm', 126), (30, 'Köln', 1084), (20, 'Trier', 110);

session 1
SELECT * FROM city;
SELECT name FROM city WHERE people >= 120 AND people < 1000;
SELECT id, name FROM city ORDER BY id DESC LIMIT 2;
SELECT * FROM city WHERE id > 10 AND id <= 30;
SELECT * FROM city WHERE name <> 'Ulm' AND name < 'T';
SELECT COUNT(*), SUM(people) FROM city WHERE id <> 40;
SELECT COUNT(*) FROM city WHERE people > 10000;
