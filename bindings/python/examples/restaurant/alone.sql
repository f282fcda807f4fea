BEGIN TRANSACTION;
-- The least answer counts: seats stand first, so that the smallest table is taken.
SELECT @request, seats AS @seats, tno AS @tno INTO ANSWER Alone
  WHERE (seats, tno) IN (SELECT seats, tno FROM Free) AND seats >= @people CHOOSE 1;
DELETE FROM Free WHERE tno = @tno;
INSERT INTO Dinners VALUES (@tno, @me, @request);
COMMIT;
