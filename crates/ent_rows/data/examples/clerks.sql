-- Ann and Bob trade seats. Each reads Seats and waits for the other, so neither of them can write it. Each has a clerk
-- instead, who doesn't read Seats and writes it in their group, once Ann and Bob are through.
CREATE TABLE Cabin (seat TEXT);
CREATE TABLE Seats (seat TEXT, who TEXT);
INSERT INTO Cabin VALUES ('12A');
INSERT INTO Cabin VALUES ('14C');
INSERT INTO Seats VALUES ('12A', 'Ann');
INSERT INTO Seats VALUES ('14C', 'Bob');

-- Ann moves to Bob's seat if he moves to hers, and if her clerk notes it.
BEGIN TRANSACTION;
SELECT 'Ann', own, seat INTO ANSWER Moves
  WHERE own IN (SELECT seat FROM Seats WHERE who = 'Ann')
    AND seat IN (SELECT seat FROM Seats WHERE who = 'Bob')
    AND ('Bob', seat, own) IN ANSWER Moves
    AND ('Ann', seat) IN ANSWER Noted
  CHOOSE 1;
COMMIT;

BEGIN TRANSACTION;
SELECT 'Bob', own, seat INTO ANSWER Moves
  WHERE own IN (SELECT seat FROM Seats WHERE who = 'Bob')
    AND seat IN (SELECT seat FROM Seats WHERE who = 'Ann')
    AND ('Ann', seat, own) IN ANSWER Moves
    AND ('Bob', seat) IN ANSWER Noted
  CHOOSE 1;
COMMIT;

-- Ann's clerk notes where she moves, wherever that is. What it chooses from is a table that nobody writes.
BEGIN TRANSACTION;
SELECT 'Ann', seat AS @seat INTO ANSWER Noted
  WHERE own IN (SELECT seat FROM Cabin)
    AND seat IN (SELECT seat FROM Cabin)
    AND ('Ann', own, seat) IN ANSWER Moves
  CHOOSE 1;
UPDATE Seats SET who = 'Ann' WHERE seat = @seat;
COMMIT;

BEGIN TRANSACTION;
SELECT 'Bob', seat AS @seat INTO ANSWER Noted
  WHERE own IN (SELECT seat FROM Cabin)
    AND seat IN (SELECT seat FROM Cabin)
    AND ('Bob', own, seat) IN ANSWER Moves
  CHOOSE 1;
UPDATE Seats SET who = 'Bob' WHERE seat = @seat;
COMMIT;
