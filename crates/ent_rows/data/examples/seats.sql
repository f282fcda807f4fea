-- Three travellers trade seats in a ring. Each moves only if another one takes the seat that is left.
CREATE TABLE Seats (seat TEXT, who TEXT);
CREATE TABLE Changes (who TEXT, seat TEXT);
INSERT INTO Seats VALUES ('12A', 'Ann');
INSERT INTO Seats VALUES ('14C', 'Bob');
INSERT INTO Seats VALUES ('20F', 'Cleo');

-- Ann moves to Bob's seat if Cleo takes hers.
BEGIN TRANSACTION;
SELECT 'Ann', seat AS @seat INTO ANSWER Moves
  WHERE seat IN (SELECT seat FROM Seats WHERE who = 'Bob')
    AND own IN (SELECT seat FROM Seats WHERE who = 'Ann')
    AND ('Cleo', own) IN ANSWER Moves
  CHOOSE 1;
INSERT INTO Changes VALUES ('Ann', @seat);
COMMIT;

-- Bob moves to Cleo's if Ann takes his.
BEGIN TRANSACTION;
SELECT 'Bob', seat AS @seat INTO ANSWER Moves
  WHERE seat IN (SELECT seat FROM Seats WHERE who = 'Cleo')
    AND own IN (SELECT seat FROM Seats WHERE who = 'Bob')
    AND ('Ann', own) IN ANSWER Moves
  CHOOSE 1;
INSERT INTO Changes VALUES ('Bob', @seat);
COMMIT;

-- Cleo moves to Ann's if Bob takes hers.
BEGIN TRANSACTION;
SELECT 'Cleo', seat AS @seat INTO ANSWER Moves
  WHERE seat IN (SELECT seat FROM Seats WHERE who = 'Ann')
    AND own IN (SELECT seat FROM Seats WHERE who = 'Cleo')
    AND ('Bob', own) IN ANSWER Moves
  CHOOSE 1;
INSERT INTO Changes VALUES ('Cleo', @seat);
COMMIT;
