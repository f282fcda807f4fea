CREATE TABLE Orders (id INT, who TEXT, side TEXT, amount INT);
INSERT INTO Orders VALUES (1, 'Ann', 'buy', 100);
INSERT INTO Orders VALUES (2, 'Ben', 'sell', 40);

BEGIN TRANSACTION;
INSERT INTO Orders VALUES (3, 'Cem', 'sell', 60);
SELECT who, amount FROM Orders WHERE side = 'sell';
COMMIT;

BEGIN TRANSACTION;
SELECT side, 'order', -1 FROM Orders;
SELECT * FROM Orders WHERE amount >= 60 AND id != 1;
COMMIT;
