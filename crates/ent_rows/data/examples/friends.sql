-- Two friends want to fly to LA on one flight, whichever it is.
CREATE TABLE Flights (fno INT, dest TEXT);
CREATE TABLE Bookings (who TEXT, fno INT);
INSERT INTO Flights VALUES (122, 'LA');
INSERT INTO Flights VALUES (123, 'LA');
INSERT INTO Flights VALUES (136, 'Paris');

-- Mickey flies where Minnie does.
BEGIN TRANSACTION;
SELECT 'Mickey', fno AS @fno INTO ANSWER Trip
  WHERE fno IN (SELECT fno FROM Flights WHERE dest = 'LA')
    AND ('Minnie', fno) IN ANSWER Trip
  CHOOSE 1;
INSERT INTO Bookings VALUES ('Mickey', @fno);
COMMIT;

-- Minnie flies where Mickey does.
BEGIN TRANSACTION;
SELECT 'Minnie', fno AS @fno INTO ANSWER Trip
  WHERE fno IN (SELECT fno FROM Flights WHERE dest = 'LA')
    AND ('Mickey', fno) IN ANSWER Trip
  CHOOSE 1;
INSERT INTO Bookings VALUES ('Minnie', @fno);
COMMIT;
