-- Eve goes to a concert only with Finn, who never asks for one. Her script takes part in three runs and gives up.
CREATE TABLE Concerts (day INT, band TEXT);
CREATE TABLE Tickets (who TEXT, day INT);
INSERT INTO Concerts VALUES (5, 'The Locks');
INSERT INTO Concerts VALUES (12, 'The Locks');

BEGIN TRANSACTION WITHIN 3 RUNS;
SELECT 'Eve', day AS @day INTO ANSWER Evening
  WHERE day IN (SELECT day FROM Concerts WHERE band = 'The Locks')
    AND ('Finn', day) IN ANSWER Evening
  CHOOSE 1;
INSERT INTO Tickets VALUES ('Eve', @day);
COMMIT;

-- Gina goes alone, and waits for nobody.
BEGIN TRANSACTION;
INSERT INTO Tickets VALUES ('Gina', 5);
COMMIT;
