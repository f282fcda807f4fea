-- A seller takes any bid. The first bid is posted; the second one would fit the seller's demand too, and is held back
-- until the lamp is sold. So the first bid gets it, though the second is higher.
CREATE TABLE Bids (who TEXT, price INT);
INSERT INTO Bids VALUES ('Ann', 10);
INSERT INTO Bids VALUES ('Bob', 20);

BEGIN TRANSACTION;
SELECT 'lamp', buyer, price INTO ANSWER Sale
  WHERE (buyer, price) IN (SELECT who, price FROM Bids)
    AND (buyer, price) IN ANSWER Bid
  CHOOSE 1;
COMMIT;

BEGIN TRANSACTION WITHIN 2 RUNS;
SELECT 'Ann', 10 INTO ANSWER Bid WHERE ('lamp', 'Ann', 10) IN ANSWER Sale CHOOSE 1;
COMMIT;

BEGIN TRANSACTION WITHIN 2 RUNS;
SELECT 'Bob', 20 INTO ANSWER Bid WHERE ('lamp', 'Bob', 20) IN ANSWER Sale CHOOSE 1;
COMMIT;
