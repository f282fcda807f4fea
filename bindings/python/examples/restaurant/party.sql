BEGIN TRANSACTION;
SELECT @me, @friend, @people, seats, tno INTO ANSWER Dinner
  WHERE (seats, tno) IN (SELECT seats, tno FROM Free) AND seats >= @people
    AND (@friend, @me, @people, seats, tno) IN ANSWER Dinner AND (@request, seats, tno) IN ANSWER Noted CHOOSE 1;
COMMIT;
