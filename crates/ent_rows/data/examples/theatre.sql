-- Seats that are sold, a sale that is taken back, and one that is changed.
CREATE TABLE Seats (play TEXT, free INT);
CREATE TABLE Sales (customer TEXT, play TEXT, seats INT);
INSERT INTO Seats VALUES ('Hamlet', 120);
INSERT INTO Seats VALUES ('Faust', 80);
INSERT INTO Sales VALUES ('Cora', 'Hamlet', 3);

-- Anna buys four seats.
BEGIN TRANSACTION;
SET @seats = 4;
UPDATE Seats SET free = free - @seats WHERE play = 'Hamlet';
INSERT INTO Sales VALUES ('Anna', 'Hamlet', @seats);
SELECT play, free FROM Seats;
COMMIT;

-- Ben changes his mind.
BEGIN TRANSACTION;
UPDATE Seats SET free = free - 2 WHERE play = 'Faust';
INSERT INTO Sales VALUES ('Ben', 'Faust', 2);
ROLLBACK;

-- Cora gives one of her seats back.
BEGIN TRANSACTION;
UPDATE Seats SET free = free + 1 WHERE play = 'Hamlet';
UPDATE Sales SET seats = seats - 1 WHERE customer = 'Cora' AND play = 'Hamlet';
SELECT * FROM Sales WHERE customer = 'Ben';
COMMIT;
