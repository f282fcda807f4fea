-- Mickey clicks twice. What Minnie demands fits both of his statements, so hers is held back in the first run; the
-- second click asks for one run alone, and in the next one the two friends meet.
CREATE TABLE Flights (fno INT, dest TEXT);
INSERT INTO Flights VALUES (122, 'LA');

BEGIN TRANSACTION;
SELECT 'Mickey', fno INTO ANSWER Trip
  WHERE fno IN (SELECT fno FROM Flights WHERE dest = 'LA')
    AND ('Minnie', fno) IN ANSWER Trip
  CHOOSE 1;
COMMIT;

BEGIN TRANSACTION WITHIN 1 RUNS;
SELECT 'Mickey', fno INTO ANSWER Trip
  WHERE fno IN (SELECT fno FROM Flights WHERE dest = 'LA')
    AND ('Minnie', fno) IN ANSWER Trip
  CHOOSE 1;
COMMIT;

BEGIN TRANSACTION;
SELECT 'Minnie', fno INTO ANSWER Trip
  WHERE fno IN (SELECT fno FROM Flights WHERE dest = 'LA')
    AND ('Mickey', fno) IN ANSWER Trip
  CHOOSE 1;
COMMIT;
