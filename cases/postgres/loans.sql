\set QUIET on
\set VERBOSITY sqlstate
\pset format csv
\pset tuples_only on
SET client_min_messages = error;
\echo submit
BEGIN; INSERT INTO Loan (Holder, Item, Since, Till, Due) VALUES ('Bob', 2, DATE '2024-03-01', DATE '2024-04-01', DATE '2024-05-01'); INSERT INTO Loan (Holder, Item, Since, Till, Due) VALUES ('Bob', 10, DATE '2024-03-01', DATE '2024-04-01', DATE '2024-05-02'); INSERT INTO Loan (Holder, Item, Since, Till, Due) VALUES ('bob', 1, DATE '2024-03-01', DATE '2024-04-01', DATE '2024-05-03'); INSERT INTO Loan (Holder, Item, Since, Till, Due) VALUES ('Ada', 3, DATE '2024-03-01', DATE '2024-04-01', DATE '2024-05-04'); INSERT INTO Loan (Holder, Item, Since, Till, Due) VALUES ('Bo', 3, DATE '2024-03-01', DATE '2024-04-01', DATE '2024-05-05'); INSERT INTO Loan (Holder, Item, Since, Till, Due) VALUES ('Bob', -2, DATE '2024-03-01', DATE '2024-04-01', DATE '2024-05-06'); INSERT INTO Loan (Holder, Item, Since, Till, Due) VALUES ('Bob', 2, DATE '2024-02-01', DATE '2024-03-01', DATE '2024-05-07'); INSERT INTO Loan (Holder, Item, Since, Till, Due) VALUES ('', 0, DATE '2024-03-01', DATE '2024-04-01', DATE '2024-05-08'); COMMIT;
\echo submit
BEGIN; INSERT INTO Loan (Holder, Item, Since, Till, Due) VALUES ('Bob', 2, DATE '2024-03-10', DATE '2024-03-11', DATE '2024-05-01'); COMMIT;
\echo ask
SELECT * FROM Loan ORDER BY Holder, Item, Since;
\echo submit
BEGIN; INSERT INTO Loan (Holder, Item, Since, Till, Due) VALUES ('Cid', 1, DATE '2024-03-01', DATE '2024-04-01', DATE '0001-01-01'); INSERT INTO Loan (Holder, Item, Since, Till, Due) VALUES ('Cid', 2, DATE '2024-03-01', DATE '2024-04-01', DATE '9999-12-31'); INSERT INTO Loan (Holder, Item, Since, Till, Due) VALUES ('Cid', 3, DATE '2024-03-01', DATE '2024-04-01', DATE '2024-02-29'); COMMIT;
\echo ask
SELECT * FROM Loan WHERE Holder = 'Cid' AND Due = DATE '2024-02-29' ORDER BY Holder, Item, Since;
\echo ask
SELECT * FROM Loan WHERE Holder = 'Cid' AND Due <> DATE '2024-02-29' ORDER BY Holder, Item, Since;
\echo ask
SELECT * FROM Loan WHERE Holder = 'Cid' AND Due < DATE '2024-02-29' ORDER BY Holder, Item, Since;
\echo ask
SELECT * FROM Loan WHERE Holder = 'Cid' AND Due <= DATE '2024-02-29' ORDER BY Holder, Item, Since;
\echo ask
SELECT * FROM Loan WHERE Holder = 'Cid' AND Due > DATE '2024-02-29' ORDER BY Holder, Item, Since;
\echo ask
SELECT * FROM Loan WHERE Holder = 'Cid' AND Due >= DATE '2024-02-29' ORDER BY Holder, Item, Since;
\echo submit
BEGIN; UPDATE Loan SET Due = DATE '2024-02-28' WHERE Holder = 'Cid' AND Due > DATE '2024-02-28'; COMMIT;
\echo submit
BEGIN; UPDATE Loan SET Due = DATE '2023-02-29' WHERE Holder = 'Cid'; COMMIT;
\echo submit
BEGIN; UPDATE Loan SET Due = 5 WHERE Holder = 'Cid'; COMMIT;
\echo ask
SELECT * FROM Loan WHERE Holder = 'Cid' ORDER BY Holder, Item, Since;
\echo submit
BEGIN; INSERT INTO Loan (Holder, Item, Since, Till, Due) VALUES ('Dan', 0, DATE '2024-03-01', DATE '2024-03-10', DATE '2024-05-01'); INSERT INTO Loan (Holder, Item, Since, Till, Due) VALUES ('Dan', 1, DATE '2024-03-05', DATE '2024-03-15', DATE '2024-05-01'); INSERT INTO Loan (Holder, Item, Since, Till, Due) VALUES ('Dan', 2, DATE '2024-03-10', DATE '2024-03-20', DATE '2024-05-01'); INSERT INTO Loan (Holder, Item, Since, Till, Due) VALUES ('Dan', 3, DATE '2024-03-12', DATE '2024-03-18', DATE '2024-05-01'); INSERT INTO Loan (Holder, Item, Since, Till, Due) VALUES ('Dan', 4, DATE '2024-03-18', DATE '2024-03-25', DATE '2024-05-01'); INSERT INTO Loan (Holder, Item, Since, Till, Due) VALUES ('Dan', 5, DATE '2024-03-20', DATE '2024-03-30', DATE '2024-05-01'); INSERT INTO Loan (Holder, Item, Since, Till, Due) VALUES ('Dan', 6, DATE '2024-03-21', DATE '2024-03-22', DATE '2024-05-01'); INSERT INTO Loan (Holder, Item, Since, Till, Due) VALUES ('Dan', 7, DATE '2024-02-01', DATE '2024-04-01', DATE '2024-05-01'); INSERT INTO Loan (Holder, Item, Since, Till, Due) VALUES ('Dan', 8, DATE '2024-03-10', DATE '2024-03-21', DATE '2024-05-01'); INSERT INTO Loan (Holder, Item, Since, Till, Due) VALUES ('Dan', 9, DATE '2024-03-09', DATE '2024-03-20', DATE '2024-05-01'); COMMIT;
\echo ask
SELECT * FROM Loan WHERE Holder = 'Dan' AND daterange(Since, Till) && daterange(DATE '2024-03-10', DATE '2024-03-20') ORDER BY Holder, Item, Since;
\echo ask
SELECT * FROM Loan WHERE Holder = 'Dan' AND daterange(Since, Till) @> daterange(DATE '2024-03-10', DATE '2024-03-20') ORDER BY Holder, Item, Since;
\echo ask
SELECT * FROM Loan WHERE Holder = 'Dan' AND daterange(Since, Till) = daterange(DATE '2024-03-10', DATE '2024-03-20') ORDER BY Holder, Item, Since;
\echo ask
SELECT * FROM Loan WHERE Holder = 'Dan' AND daterange(Since, Till) << daterange(DATE '2024-03-10', DATE '2024-03-20') ORDER BY Holder, Item, Since;
\echo ask
SELECT * FROM Loan WHERE Holder = 'Dan' AND daterange(Since, Till) >> daterange(DATE '2024-03-10', DATE '2024-03-20') ORDER BY Holder, Item, Since;
\echo ask
SELECT * FROM Loan WHERE Holder = 'Dan' AND daterange(Since, Till) << daterange(DATE '2024-03-10', DATE '2024-03-20') AND daterange(Since, Till) -|- daterange(DATE '2024-03-10', DATE '2024-03-20') ORDER BY Holder, Item, Since;
\echo ask
SELECT * FROM Loan WHERE Holder = 'Dan' AND daterange(Since, Till) >> daterange(DATE '2024-03-10', DATE '2024-03-20') AND daterange(Since, Till) -|- daterange(DATE '2024-03-10', DATE '2024-03-20') ORDER BY Holder, Item, Since;
\echo ask
SELECT * FROM Loan WHERE Holder = 'Dan' AND daterange(Since, Till) @> DATE '2024-03-09' ORDER BY Holder, Item, Since;
\echo ask
SELECT * FROM Loan WHERE Holder = 'Dan' AND daterange(Since, Till) @> DATE '2024-03-10' ORDER BY Holder, Item, Since;
\echo ask
SELECT * FROM Loan WHERE Holder = 'Dan' AND daterange(Since, Till) @> DATE '2024-03-19' ORDER BY Holder, Item, Since;
\echo ask
SELECT * FROM Loan WHERE Holder = 'Dan' AND daterange(Since, Till) @> DATE '2024-03-20' ORDER BY Holder, Item, Since;
\echo ask
SELECT * FROM Loan WHERE Holder = 'Dan' AND daterange(Since, Till) @> DATE '2024-03-21' ORDER BY Holder, Item, Since;
\echo ask
SELECT * FROM Loan WHERE daterange(Since, Till) && daterange(DATE '2024-03-10', DATE '2024-03-20') AND daterange(Since, Till) @> DATE '2024-03-19' AND Item >= 3 AND Holder = 'Dan' ORDER BY Holder, Item, Since;
\echo submit
BEGIN; SELECT portion('loan', '2024-03-12', '2024-03-22', 'Holder = ''Dan'' AND Item < 4', 'Due = DATE ''2024-06-01'''); COMMIT;
\echo submit
BEGIN; SELECT portion('loan', '2024-03-15', '2024-03-16', 'Holder = ''Dan''', NULL); COMMIT;
\echo ask
SELECT * FROM Loan WHERE Holder = 'Dan' ORDER BY Holder, Item, Since;
