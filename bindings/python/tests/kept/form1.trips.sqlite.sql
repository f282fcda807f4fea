BEGIN TRANSACTION;
CREATE TABLE "Bookings" ("who" TEXT NOT NULL, "fno" INTEGER NOT NULL);
INSERT INTO "Bookings" VALUES('Ann',122);
INSERT INTO "Bookings" VALUES('Bob''s',122);
CREATE TABLE "Flights" ("fno" INTEGER NOT NULL, "dest" TEXT NOT NULL, PRIMARY KEY ("fno", "dest")) WITHOUT ROWID;
INSERT INTO "Flights" VALUES(122,'LA');
INSERT INTO "Flights" VALUES(136,'Paris');
CREATE TABLE "entangle_claim" (form INTEGER NOT NULL PRIMARY KEY, claim INTEGER NOT NULL, write INTEGER NOT NULL, epoch INTEGER NOT NULL, last_group INTEGER NOT NULL, next_ticket INTEGER NOT NULL);
INSERT INTO "entangle_claim" VALUES(1,2,14,3,3,9);
CREATE TABLE entangle_tables (place TEXT NOT NULL PRIMARY KEY, store TEXT NOT NULL);
INSERT INTO "entangle_tables" VALUES('main.flights','entangle');
INSERT INTO "entangle_tables" VALUES('main.bookings','entangle');
CREATE TABLE "entangle_tickets" (ticket INTEGER NOT NULL PRIMARY KEY, request_key TEXT UNIQUE, script TEXT NOT NULL, bound TEXT NOT NULL, patience INTEGER NOT NULL, batches INTEGER NOT NULL, ended_in INTEGER, ending TEXT, epoch INTEGER, number INTEGER, failure TEXT, answers TEXT, CHECK ((ended_in IS NULL) = (ending IS NULL OR ending = 'withdrawn')), CHECK ((ending = 'committed') = (number IS NOT NULL)));
INSERT INTO "entangle_tickets" VALUES(1,'a','BEGIN TRANSACTION;
SELECT @me, fno AS @fno INTO ANSWER Trip
  WHERE fno IN (SELECT fno FROM Flights WHERE dest = ''LA'') AND (@friend, fno) IN ANSWER Trip CHOOSE 1;
INSERT INTO Bookings VALUES (@me, @fno);
COMMIT;
','{"me": "Ann", "friend": "Bob''s"}',0,0,2,'committed',1,1,NULL,'[{"answer": {"Trip": ["Ann", 122]}}, {"count": 1}]');
INSERT INTO "entangle_tickets" VALUES(2,'full','BEGIN TRANSACTION; INSERT INTO Bookings VALUES (''x'', 1); SET @d = 9223372036854775807 + 1; COMMIT;','{}',0,0,1,'failed',NULL,NULL,'F1','[]');
INSERT INTO "entangle_tickets" VALUES(3,'b','BEGIN TRANSACTION;
SELECT @me, fno AS @fno INTO ANSWER Trip
  WHERE fno IN (SELECT fno FROM Flights WHERE dest = ''LA'') AND (@friend, fno) IN ANSWER Trip CHOOSE 1;
INSERT INTO Bookings VALUES (@me, @fno);
COMMIT;
','{"me": "Bob''s", "friend": "Ann"}',-1,0,2,'committed',1,2,NULL,'[{"answer": {"Trip": ["Bob''s", 122]}}, {"count": 1}]');
INSERT INTO "entangle_tickets" VALUES(4,NULL,'BEGIN TRANSACTION;
SELECT @me, fno AS @fno INTO ANSWER Trip
  WHERE fno IN (SELECT fno FROM Flights WHERE dest = ''LA'') AND (@friend, fno) IN ANSWER Trip CHOOSE 1;
INSERT INTO Bookings VALUES (@me, @fno);
COMMIT;
','{"me": "Cleo", "friend": "nobody"}',-1,0,NULL,'withdrawn',NULL,NULL,NULL,'[]');
INSERT INTO "entangle_tickets" VALUES(5,'eve','BEGIN TRANSACTION;
SELECT @me, fno AS @fno INTO ANSWER Trip
  WHERE fno IN (SELECT fno FROM Flights WHERE dest = ''Rome'') AND (@friend, fno) IN ANSWER Trip CHOOSE 1;
INSERT INTO Bookings VALUES (@me, @fno);
COMMIT;
','{"me": "Eve", "friend": "Finn"}',5,1,NULL,NULL,NULL,NULL,NULL,NULL);
INSERT INTO "entangle_tickets" VALUES(6,NULL,'BEGIN TRANSACTION;
SELECT @me, fno AS @fno INTO ANSWER Trip
  WHERE fno IN (SELECT fno FROM Flights WHERE dest = ''Rome'') AND (@friend, fno) IN ANSWER Trip CHOOSE 1;
INSERT INTO Bookings VALUES (@me, @fno);
COMMIT;
','{"me": "Finn", "friend": "Eve"}',0,0,NULL,NULL,NULL,NULL,NULL,NULL);
INSERT INTO "entangle_tickets" VALUES(7,'gus','BEGIN TRANSACTION;
SELECT @me, fno AS @fno INTO ANSWER Trip
  WHERE fno IN (SELECT fno FROM Flights WHERE dest = ''LA'') AND (@friend, fno) IN ANSWER Trip CHOOSE 1;
INSERT INTO Bookings VALUES (@me, @fno);
COMMIT;
','{"me": "Gus", "friend": "Hal"}',0,0,NULL,NULL,NULL,NULL,NULL,NULL);
INSERT INTO "entangle_tickets" VALUES(8,NULL,'BEGIN TRANSACTION; DELETE FROM Flights; ROLLBACK;','{}',-1,0,3,'rolled back',NULL,NULL,NULL,'[]');
CREATE INDEX "entangle_waiting" ON "entangle_tickets" (ticket) WHERE ending IS NULL;
CREATE UNIQUE INDEX "entangle_commits" ON "entangle_tickets" (epoch, number) WHERE ending = 'committed';
COMMIT;
