CREATE TABLE Books (id INT, title TEXT, author TEXT);
CREATE TABLE Members (card INT, name TEXT);
CREATE TABLE Loans (book INT, card INT, due INT);
INSERT INTO Books VALUES (1, 'Emma', 'Austen');
INSERT INTO Books VALUES (2, 'Persuasion', 'Austen');
INSERT INTO Books VALUES (3, 'Middlemarch', 'Eliot');
INSERT INTO Members VALUES (10, 'Ada');
INSERT INTO Members VALUES (11, 'Bo');
INSERT INTO Loans VALUES (1, 10, 20);
INSERT INTO Loans VALUES (3, 11, 15);

-- Who has which book?
BEGIN TRANSACTION;
SELECT name, title FROM Loans l, Books, Members AS m WHERE l.book = id AND l.card = m.card;
COMMIT;

-- Ada liked Emma and takes another book by the same author. It is day 18: who is late?
BEGIN TRANSACTION;
SELECT other.title FROM Books AS liked, Books AS other
  WHERE liked.title = 'Emma' AND other.author = liked.author AND other.id <> liked.id;
INSERT INTO Loans VALUES (2, 10, 30);
SET @today = 18;
SELECT name, due FROM Loans, Members WHERE Loans.card = Members.card AND due < @today;
COMMIT;

-- Bo brings his book back.
BEGIN TRANSACTION;
DELETE FROM Loans WHERE Loans.book = 3;
SELECT name, title FROM Loans l, Books, Members AS m WHERE l.book = id AND l.card = m.card;
COMMIT;
