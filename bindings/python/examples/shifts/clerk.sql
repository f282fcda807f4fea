BEGIN TRANSACTION;
SELECT @request, @wanted INTO ANSWER Noted WHERE (@own, @wanted) IN ANSWER Swaps CHOOSE 1;
UPDATE Works SET who = @me WHERE shift = @wanted;
COMMIT;
