-- Ann waits for a seat, and her statement keeps writers out of Free as long as it is posted. The cancellation behind her
-- is blocked in each run, until she gives up; then Bob, who waits longer, has the seat.
CREATE TABLE Free (seat INT);
CREATE TABLE Sold (who TEXT, seat INT);

BEGIN TRANSACTION WITHIN 2 RUNS;
SELECT 'Ann', seat AS @seat INTO ANSWER Seat WHERE seat IN (SELECT seat FROM Free) CHOOSE 1;
DELETE FROM Free WHERE seat = @seat;
INSERT INTO Sold VALUES ('Ann', @seat);
COMMIT;

BEGIN TRANSACTION;
INSERT INTO Free VALUES (12);
COMMIT;

BEGIN TRANSACTION;
SELECT 'Bob', seat AS @seat INTO ANSWER Seat WHERE seat IN (SELECT seat FROM Free) CHOOSE 1;
DELETE FROM Free WHERE seat = @seat;
INSERT INTO Sold VALUES ('Bob', @seat);
COMMIT;
