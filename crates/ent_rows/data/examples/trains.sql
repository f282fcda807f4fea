-- Trains, with the minutes after midnight at which they leave and arrive, and where they stand.
CREATE TABLE Trains (train TEXT, origin TEXT, goal TEXT, leaves INT, arrives INT);
CREATE TABLE Platforms (train TEXT, platform INT);
INSERT INTO Trains VALUES ('IC 5', 'Bern', 'Geneva', 480, 590);
INSERT INTO Trains VALUES ('IC 7', 'Bern', 'Geneva', 540, 650);
INSERT INTO Trains VALUES ('TGV 2', 'Geneva', 'Lyon', 600, 720);
INSERT INTO Trains VALUES ('TER 8', 'Geneva', 'Lyon', 660, 800);
INSERT INTO Platforms VALUES ('TGV 2', 7);
INSERT INTO Platforms VALUES ('TER 8', 4);

-- From Bern to Lyon with one change, and the platform of the second train.
BEGIN TRANSACTION;
SELECT a.train, b.train, platform FROM Trains AS a, Trains AS b, Platforms p
  WHERE a.origin = 'Bern' AND a.goal = b.origin AND b.goal = 'Lyon' AND a.arrives < b.leaves AND p.train = b.train;
COMMIT;

-- The first train is late by 20 minutes.
BEGIN TRANSACTION;
UPDATE Trains SET leaves = leaves + 20, arrives = Trains.arrives + 20 WHERE train = 'IC 5';
SELECT a.train, b.train, b.arrives FROM Trains AS a, Trains AS b
  WHERE a.origin = 'Bern' AND a.goal = b.origin AND b.goal = 'Lyon' AND a.arrives < b.leaves;
COMMIT;
