BEGIN TRANSACTION;
SELECT tno AS @tno, seats AS @seats INTO ANSWER Cancelled
  WHERE tno IN (SELECT tno FROM Dinners WHERE booking = @dinner)
    AND (tno, seats) IN (SELECT tno, seats FROM Tables) CHOOSE 1;
DELETE FROM Dinners WHERE tno = @tno;
INSERT INTO Free VALUES (@tno, @seats);
COMMIT;
