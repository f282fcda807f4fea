-- Two transfers between the accounts of Ida, each the other way round. After the first statement of each they wait for
-- each other, so the second is rolled back; it commits in the next run.
CREATE TABLE Checking (owner TEXT, euros INT);
CREATE TABLE Savings (owner TEXT, euros INT);
INSERT INTO Checking VALUES ('Ida', 500);
INSERT INTO Savings VALUES ('Ida', 2000);

-- Ida puts 100 by.
BEGIN TRANSACTION;
UPDATE Checking SET euros = euros - 100 WHERE owner = 'Ida';
UPDATE Savings SET euros = euros + 100 WHERE owner = 'Ida';
COMMIT;

-- The bank pays out her interest.
BEGIN TRANSACTION;
UPDATE Savings SET euros = euros - 30 WHERE owner = 'Ida';
UPDATE Checking SET euros = euros + 30 WHERE owner = 'Ida';
COMMIT;
