BEGIN TRANSACTION;
-- Both parties read Free, so their clerks write it. A clerk reads only what nobody writes.
SELECT @request, seats AS @seats, tno AS @tno INTO ANSWER Noted
  WHERE (seats, tno) IN (SELECT seats, tno FROM Tables)
    AND (@me, @friend, @people, seats, tno) IN ANSWER Dinner CHOOSE 1;
DELETE FROM Free WHERE tno = @tno;
INSERT INTO Dinners VALUES (@tno, @me, @request);
COMMIT;
