BEGIN TRANSACTION;
SELECT @own, @wanted INTO ANSWER Swaps
  WHERE (@own, @me) IN (SELECT shift, who FROM Works) AND @own <> @wanted AND (@request, @wanted) IN ANSWER Noted
    AND next IN (SELECT shift FROM Shifts) AND (@wanted, next) IN ANSWER Swaps
    AND last IN (SELECT shift FROM Shifts) AND (last, @own) IN ANSWER Swaps CHOOSE 1;
COMMIT;
