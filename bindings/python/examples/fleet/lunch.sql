BEGIN TRANSACTION;
SELECT @me, place AS @place INTO ANSWER Lunch
  WHERE place IN (SELECT place FROM Places) AND (@friend, place) IN ANSWER Lunch CHOOSE 1;
INSERT INTO Lunches VALUES (@request, @me, @place);
COMMIT;
