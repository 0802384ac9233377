\set QUIET on
\set VERBOSITY sqlstate
\pset format csv
\pset tuples_only on
SET client_min_messages = error;
\echo submit
BEGIN; INSERT INTO Stay (Room, Since, Till, Guest, Paid) VALUES (1, DATE '2024-03-01', DATE '2024-04-01', 'Ada', 10); COMMIT;
\echo submit
BEGIN; INSERT INTO Stay (Room, Since, Till, Guest, Paid) VALUES (1, DATE '2024-03-15', DATE '2024-04-15', 'Bob', 10); COMMIT;
\echo submit
BEGIN; INSERT INTO Stay (Room, Since, Till, Guest, Paid) VALUES (1, DATE '2024-02-15', DATE '2024-03-15', 'Cid', 10); COMMIT;
\echo ask
SELECT * FROM Stay WHERE Room = 1 ORDER BY Room, Since;
\echo submit
BEGIN; INSERT INTO Stay (Room, Since, Till, Guest, Paid) VALUES (2, DATE '2024-03-01', DATE '2024-04-01', 'Ada', 10); COMMIT;
\echo submit
BEGIN; INSERT INTO Stay (Room, Since, Till, Guest, Paid) VALUES (2, DATE '2024-03-01', DATE '2024-04-01', 'Ada', 10); COMMIT;
\echo submit
BEGIN; INSERT INTO Stay (Room, Since, Till, Guest, Paid) VALUES (2, DATE '2024-03-01', DATE '2024-04-01', 'Bob', 11); COMMIT;
\echo ask
SELECT * FROM Stay WHERE Room = 2 ORDER BY Room, Since;
\echo submit
BEGIN; INSERT INTO Stay (Room, Since, Till, Guest, Paid) VALUES (3, DATE '2024-03-01', DATE '2024-04-01', 'Ada', 10); COMMIT;
\echo submit
BEGIN; INSERT INTO Stay (Room, Since, Till, Guest, Paid) VALUES (3, DATE '2024-04-01', DATE '2024-05-01', 'Bob', 10); COMMIT;
\echo submit
BEGIN; INSERT INTO Stay (Room, Since, Till, Guest, Paid) VALUES (3, DATE '2024-02-01', DATE '2024-03-01', 'Cid', 10); COMMIT;
\echo ask
SELECT * FROM Stay WHERE Room = 3 ORDER BY Room, Since;
\echo submit
BEGIN; INSERT INTO Stay (Room, Since, Till, Guest, Paid) VALUES (4, DATE '2024-03-01', DATE '2024-04-01', 'Ada', 10); COMMIT;
\echo submit
BEGIN; INSERT INTO Stay (Room, Since, Till, Guest, Paid) VALUES (4, DATE '2024-03-10', DATE '2024-03-11', 'Bob', 10); COMMIT;
\echo submit
BEGIN; INSERT INTO Stay (Room, Since, Till, Guest, Paid) VALUES (4, DATE '2024-02-01', DATE '2024-05-01', 'Cid', 10); COMMIT;
\echo ask
SELECT * FROM Stay WHERE Room = 4 ORDER BY Room, Since;
\echo submit
BEGIN; INSERT INTO Stay (Room, Since, Till, Guest, Paid) VALUES (5, DATE '2024-03-01', DATE '2024-04-01', 'Ada', 10); COMMIT;
\echo submit
BEGIN; INSERT INTO Stay (Room, Since, Till, Guest, Paid) VALUES (5, DATE '2024-03-31', DATE '2024-05-01', 'Bob', 10); COMMIT;
\echo submit
BEGIN; INSERT INTO Stay (Room, Since, Till, Guest, Paid) VALUES (5, DATE '2024-02-01', DATE '2024-03-02', 'Cid', 10); COMMIT;
\echo ask
SELECT * FROM Stay WHERE Room = 5 ORDER BY Room, Since;
\echo submit
BEGIN; INSERT INTO Stay (Room, Since, Till, Guest, Paid) VALUES (6, DATE '2024-03-01', DATE '2024-04-01', 'Ada', 10); COMMIT;
\echo submit
BEGIN; INSERT INTO Stay (Room, Since, Till, Guest, Paid) VALUES (6, DATE '2024-04-02', DATE '2024-05-01', 'Bob', 10); COMMIT;
\echo submit
BEGIN; INSERT INTO Stay (Room, Since, Till, Guest, Paid) VALUES (6, DATE '2024-04-01', DATE '2024-04-02', 'Cid', 10); COMMIT;
\echo submit
BEGIN; INSERT INTO Stay (Room, Since, Till, Guest, Paid) VALUES (6, DATE '2024-04-01', DATE '2024-04-02', 'Dan', 10); COMMIT;
\echo ask
SELECT * FROM Stay WHERE Room = 6 ORDER BY Room, Since;
\echo submit
BEGIN; INSERT INTO Stay (Room, Since, Till, Guest, Paid) VALUES (7, DATE '2024-03-01', DATE '2024-04-01', 'Ada', 10); COMMIT;
\echo submit
BEGIN; INSERT INTO Stay (Room, Since, Till, Guest, Paid) VALUES (-7, DATE '2024-03-01', DATE '2024-04-01', 'Bob', 10); COMMIT;
\echo ask
SELECT * FROM Stay WHERE Room = 7 ORDER BY Room, Since;
\echo ask
SELECT * FROM Stay WHERE Room = -7 ORDER BY Room, Since;
\echo submit
BEGIN; INSERT INTO Stay (Room, Since, Till, Guest, Paid) VALUES (8, DATE '2024-03-01', DATE '2024-04-01', 'Ada', 10); INSERT INTO Stay (Room, Since, Till, Guest, Paid) VALUES (8, DATE '2024-03-31', DATE '2024-04-02', 'Bob', 10); COMMIT;
\echo ask
SELECT * FROM Stay WHERE Room = 8 ORDER BY Room, Since;
\echo submit
BEGIN; INSERT INTO Stay (Room, Since, Till, Guest, Paid) VALUES (8, DATE '2024-03-01', DATE '2024-04-01', 'Ada', 10); INSERT INTO Stay (Room, Since, Till, Guest, Paid) VALUES (8, DATE '2024-04-01', DATE '2024-04-02', 'Bob', 10); COMMIT;
\echo ask
SELECT * FROM Stay WHERE Room = 8 ORDER BY Room, Since;
\echo submit
BEGIN; INSERT INTO Stay (Room, Since, Till, Guest, Paid) VALUES (9, DATE '2024-03-01', DATE '2024-03-01', 'Ada', 10); COMMIT;
\echo submit
BEGIN; INSERT INTO Stay (Room, Since, Till, Guest, Paid) VALUES (9, DATE '2024-03-02', DATE '2024-03-01', 'Ada', 10); COMMIT;
\echo ask
SELECT * FROM Stay WHERE Room = 9 ORDER BY Room, Since;
\echo submit
BEGIN; INSERT INTO Stay (Room, Since, Till, Guest, Paid) VALUES (10, DATE '2024-02-29', DATE '2024-03-01', 'Ada', 10); COMMIT;
\echo submit
BEGIN; INSERT INTO Stay (Room, Since, Till, Guest, Paid) VALUES (10, DATE '2023-02-28', DATE '2023-02-29', 'Ada', 10); COMMIT;
\echo submit
BEGIN; INSERT INTO Stay (Room, Since, Till, Guest, Paid) VALUES (10, DATE '2023-02-28', DATE '2023-03-01', 'Bob', 10); COMMIT;
\echo submit
BEGIN; INSERT INTO Stay (Room, Since, Till, Guest, Paid) VALUES (10, DATE '2000-02-29', DATE '2000-03-01', 'Cid', 10); COMMIT;
\echo submit
BEGIN; INSERT INTO Stay (Room, Since, Till, Guest, Paid) VALUES (10, DATE '1900-02-29', DATE '1900-03-01', 'Dan', 10); COMMIT;
\echo ask
SELECT * FROM Stay WHERE Room = 10 ORDER BY Room, Since;
\echo submit
BEGIN; INSERT INTO Stay (Room, Since, Till, Guest, Paid) VALUES (11, DATE '0001-01-01', DATE '9999-12-31', 'Ada', 10); COMMIT;
\echo ask
SELECT * FROM Stay WHERE Room = 11 ORDER BY Room, Since;
\echo submit
BEGIN; INSERT INTO Stay (Room, Since, Till, Guest, Paid) VALUES (-11, DATE '0000-12-31', DATE '0001-01-02', 'Ada', 10); COMMIT;
\echo submit
BEGIN; INSERT INTO Stay (Room, Since, Till, Guest, Paid) VALUES (-11, DATE '2024-04-30', DATE '2024-04-31', 'Ada', 10); COMMIT;
\echo submit
BEGIN; INSERT INTO Stay (Room, Since, Till, Guest, Paid) VALUES (-11, DATE '2024-00-10', DATE '2024-01-10', 'Ada', 10); COMMIT;
\echo submit
BEGIN; INSERT INTO Stay (Room, Since, Till, Guest, Paid) VALUES (-11, DATE '2024-12-31', DATE '2024-13-01', 'Ada', 10); COMMIT;
\echo submit
BEGIN; INSERT INTO Stay (Room, Since, Till, Guest, Paid) VALUES (-11, DATE '2024-01-00', DATE '2024-01-02', 'Ada', 10); COMMIT;
\echo ask
SELECT * FROM Stay WHERE Room = -11 ORDER BY Room, Since;
\echo submit
BEGIN; INSERT INTO Stay (Room, Since, Till, Guest, Paid) VALUES (12, DATE '2024-03-01', DATE '2024-03-02', 'Ada', 9223372036854775807); COMMIT;
\echo submit
BEGIN; INSERT INTO Stay (Room, Since, Till, Guest, Paid) VALUES (12, DATE '2024-03-02', DATE '2024-03-03', 'Bob', -9223372036854775808); COMMIT;
\echo submit
BEGIN; INSERT INTO Stay (Room, Since, Till, Guest, Paid) VALUES (12, DATE '2024-03-03', DATE '2024-03-04', 'Cid', 9223372036854775808); COMMIT;
\echo submit
BEGIN; INSERT INTO Stay (Room, Since, Till, Guest, Paid) VALUES (12, DATE '2024-03-04', DATE '2024-03-05', 'Dan', -9223372036854775809); COMMIT;
\echo ask
SELECT * FROM Stay WHERE Room = 12 ORDER BY Room, Since;
\echo submit
BEGIN; INSERT INTO Stay (Room, Since, Till, Guest, Paid) VALUES (0013, DATE '2024-03-01', DATE '2024-03-02', 'Ada', 007); COMMIT;
\echo submit
BEGIN; INSERT INTO Stay (Room, Since, Till, Guest, Paid) VALUES (13, DATE '2024-03-02', DATE '2024-03-03', 'Bob', -00); COMMIT;
\echo ask
SELECT * FROM Stay WHERE Room = 13 ORDER BY Room, Since;
\echo submit
BEGIN; INSERT INTO Stay (Room, Since, Till, Guest, Paid) VALUES (14, DATE '2024-03-01', DATE '2024-03-02', '12345678', 10); COMMIT;
\echo submit
BEGIN; INSERT INTO Stay (Room, Since, Till, Guest, Paid) VALUES (14, DATE '2024-03-02', DATE '2024-03-03', '123456789', 10); COMMIT;
\echo submit
BEGIN; INSERT INTO Stay (Room, Since, Till, Guest, Paid) VALUES (14, DATE '2024-03-03', DATE '2024-03-04', '', 10); COMMIT;
\echo submit
BEGIN; INSERT INTO Stay (Room, Since, Till, Guest, Paid) VALUES (14, DATE '2024-03-04', DATE '2024-03-05', 'it''s', 10); COMMIT;
\echo submit
BEGIN; INSERT INTO Stay (Room, Since, Till, Guest, Paid) VALUES (14, DATE '2024-03-05', DATE '2024-03-06', '''''', 10); COMMIT;
\echo submit
BEGIN; INSERT INTO Stay (Room, Since, Till, Guest, Paid) VALUES (14, DATE '2024-03-06', DATE '2024-03-07', 'a,b"c', 10); COMMIT;
\echo submit
BEGIN; INSERT INTO Stay (Room, Since, Till, Guest, Paid) VALUES (14, DATE '2024-03-07', DATE '2024-03-08', ' a ', 10); COMMIT;
\echo submit
BEGIN; INSERT INTO Stay (Room, Since, Till, Guest, Paid) VALUES (14, DATE '2024-03-08', DATE '2024-03-09', '%_\;', 10); COMMIT;
\echo ask
SELECT * FROM Stay WHERE Room = 14 ORDER BY Room, Since;
\echo submit
BEGIN; INSERT INTO Stays (Room, Since, Till, Guest, Paid) VALUES (15, DATE '2024-03-01', DATE '2024-03-02', 'Ada', 1); COMMIT;
\echo submit
BEGIN; INSERT INTO Stay (Room, Since, Till, Guest, Payed) VALUES (15, DATE '2024-03-01', DATE '2024-03-02', 'Ada', 1); COMMIT;
\echo submit
BEGIN; INSERT INTO Stay (Room, Since, Till, Guest) VALUES (15, DATE '2024-03-01', DATE '2024-03-02', 'Ada'); COMMIT;
\echo submit
BEGIN; INSERT INTO Stay (Room, Since, Till, Guest, Paid, Paid) VALUES (15, DATE '2024-03-01', DATE '2024-03-02', 'Ada', 1, 1); COMMIT;
\echo submit
BEGIN; INSERT INTO Stay (Room, Since, Till, Guest, Paid) VALUES (15, DATE '2024-03-01', DATE '2024-03-02', 'Ada', 1, 1); COMMIT;
\echo submit
BEGIN; UPDATE Stays SET Paid = 1; COMMIT;
\echo submit
BEGIN; UPDATE Stay SET Payed = 1; COMMIT;
\echo submit
BEGIN; UPDATE Stay SET Paid = 1, Paid = 2; COMMIT;
\echo submit
BEGIN; UPDATE Stay SET Paid = 1 WHERE Rom = 15; COMMIT;
\echo submit
BEGIN; DELETE FROM Stays; COMMIT;
\echo ask
SELECT * FROM Stay WHERE Room = 15 ORDER BY Room, Since;
\echo submit
BEGIN; insert into STAY (paid, GUEST, till, Since, room) values (5, 'Ada', date '2024-03-02', Date '2024-03-01', 16); COMMIT;
\echo ask
SELECT * FROM Stay WHERE Room = 16 ORDER BY Room, Since;
\echo submit
BEGIN; INSERT INTO Stay (Room, Since, Till, Guest, Paid) VALUES (DATE '2024-03-01', DATE '2024-03-01', DATE '2024-03-02', 'Ada', 10); COMMIT;
\echo submit
BEGIN; INSERT INTO Stay (Room, Since, Till, Guest, Paid) VALUES (17, 1, DATE '2024-03-02', 'Ada', 1); COMMIT;
\echo submit
BEGIN; INSERT INTO Stay (Room, Since, Till, Guest, Paid) VALUES (17, DATE '2024-03-01', DATE '2024-03-02', 'Ada', DATE '2024-03-01'); COMMIT;
\echo ask
SELECT * FROM Stay WHERE Room = 17 ORDER BY Room, Since;
\echo submit
BEGIN; INSERT Stay (Room, Since, Till, Guest, Paid) VALUES (18, DATE '2024-03-01', DATE '2024-03-02', 'Ada', 1); COMMIT;
\echo submit
BEGIN; DELETE Stay WHERE Room = 18; COMMIT;
\echo submit
BEGIN; UPDATE Stay Paid = 1; COMMIT;
\echo submit
BEGIN; UPDATE Stay SET Paid = 1 WHERE; COMMIT;
\echo submit
BEGIN; UPDATE Stay SET Paid = 1 WHERE Room = 18 AND; COMMIT;
\echo ask
SELECT * FROM Stay WHERE Room = 18 ORDER BY Room, Since;
\echo submit
BEGIN; INSERT INTO Stay (Room, Since, Till, Guest, Paid) VALUES (19, DATE '2024-03-01', DATE '2024-03-02', 'Ada', 9223372036854775806); COMMIT;
\echo submit
BEGIN; UPDATE Stay SET Paid = Paid + 1 WHERE Room = 19; COMMIT;
\echo submit
BEGIN; UPDATE Stay SET Paid = Paid + 1 WHERE Room = 19; COMMIT;
\echo submit
BEGIN; UPDATE Stay SET Guest = 'Bob' WHERE Room = 19; UPDATE Stay SET Paid = Paid + 9223372036854775807 WHERE Room = 19; COMMIT;
\echo ask
SELECT * FROM Stay WHERE Room = 19 ORDER BY Room, Since;
\echo submit
BEGIN; UPDATE Stay SET Paid = Paid - 9223372036854775807 WHERE Room = 19; UPDATE Stay SET Paid = Paid - 9223372036854775807 WHERE Room = 19; COMMIT;
\echo ask
SELECT * FROM Stay WHERE Room = 19 ORDER BY Room, Since;
\echo submit
BEGIN; UPDATE Stay SET Paid = Paid - 2 WHERE Room = 19; COMMIT;
\echo submit
BEGIN; UPDATE Stay SET Paid = Paid - 1 WHERE Room = 19; COMMIT;
\echo ask
SELECT * FROM Stay WHERE Room = 19 ORDER BY Room, Since;
\echo submit
BEGIN; INSERT INTO Stay (Room, Since, Till, Guest, Paid) VALUES (20, DATE '2024-03-01', DATE '2024-03-02', 'Ada', -5); INSERT INTO Stay (Room, Since, Till, Guest, Paid) VALUES (20, DATE '2024-03-02', DATE '2024-03-03', 'ada', 0); INSERT INTO Stay (Room, Since, Till, Guest, Paid) VALUES (20, DATE '2024-03-03', DATE '2024-03-04', 'Bo', 3); INSERT INTO Stay (Room, Since, Till, Guest, Paid) VALUES (20, DATE '2024-03-04', DATE '2024-03-05', 'Bob', 3); INSERT INTO Stay (Room, Since, Till, Guest, Paid) VALUES (20, DATE '2024-03-05', DATE '2024-03-06', 'Bobby', 8); INSERT INTO Stay (Room, Since, Till, Guest, Paid) VALUES (20, DATE '2024-03-06', DATE '2024-03-07', '', 12); COMMIT;
\echo submit
BEGIN; UPDATE Stay SET Paid = Paid + 100 WHERE Room = 20 AND Paid = 3; COMMIT;
\echo submit
BEGIN; UPDATE Stay SET Paid = Paid + 100 WHERE Room = 20 AND Paid <> 103; COMMIT;
\echo submit
BEGIN; UPDATE Stay SET Paid = Paid + 100 WHERE Room = 20 AND Paid < 100; COMMIT;
\echo submit
BEGIN; UPDATE Stay SET Paid = Paid + 100 WHERE Room = 20 AND Paid <= 203; COMMIT;
\echo submit
BEGIN; UPDATE Stay SET Paid = Paid + 100 WHERE Room = 20 AND Paid > 204; COMMIT;
\echo submit
BEGIN; UPDATE Stay SET Paid = Paid + 100 WHERE Room = 20 AND Paid >= 303; COMMIT;
\echo ask
SELECT * FROM Stay WHERE Room = 20 ORDER BY Room, Since;
\echo ask
SELECT * FROM Stay WHERE Room = 20 AND Paid > 300 AND Paid < 306 ORDER BY Room, Since;
\echo submit
BEGIN; INSERT INTO Stay (Room, Since, Till, Guest, Paid) VALUES (21, DATE '2024-03-01', DATE '2024-03-02', 'Ada', -5); INSERT INTO Stay (Room, Since, Till, Guest, Paid) VALUES (21, DATE '2024-03-02', DATE '2024-03-03', 'ada', 0); INSERT INTO Stay (Room, Since, Till, Guest, Paid) VALUES (21, DATE '2024-03-03', DATE '2024-03-04', 'Bo', 3); INSERT INTO Stay (Room, Since, Till, Guest, Paid) VALUES (21, DATE '2024-03-04', DATE '2024-03-05', 'Bob', 3); INSERT INTO Stay (Room, Since, Till, Guest, Paid) VALUES (21, DATE '2024-03-05', DATE '2024-03-06', 'Bobby', 8); INSERT INTO Stay (Room, Since, Till, Guest, Paid) VALUES (21, DATE '2024-03-06', DATE '2024-03-07', '', 12); COMMIT;
\echo ask
SELECT * FROM Stay WHERE Room = 21 AND Guest = 'Bob' ORDER BY Room, Since;
\echo ask
SELECT * FROM Stay WHERE Room = 21 AND Guest <> 'Bob' ORDER BY Room, Since;
\echo ask
SELECT * FROM Stay WHERE Room = 21 AND Guest < 'Bob' ORDER BY Room, Since;
\echo ask
SELECT * FROM Stay WHERE Room = 21 AND Guest <= 'Bob' ORDER BY Room, Since;
\echo ask
SELECT * FROM Stay WHERE Room = 21 AND Guest > 'Bob' ORDER BY Room, Since;
\echo ask
SELECT * FROM Stay WHERE Room = 21 AND Guest >= 'Bo' ORDER BY Room, Since;
\echo ask
SELECT * FROM Stay WHERE Room = 21 AND Guest < 'B' ORDER BY Room, Since;
\echo ask
SELECT * FROM Stay WHERE Room = 21 AND Guest > 'Z' ORDER BY Room, Since;
\echo ask
SELECT * FROM Stay WHERE Room = 21 AND Guest >= '' ORDER BY Room, Since;
\echo submit
BEGIN; INSERT INTO Stay (Room, Since, Till, Guest, Paid) VALUES (22, DATE '2024-03-01', DATE '2024-04-01', 'Ada', 10); COMMIT;
\echo submit
BEGIN; DELETE FROM Stay WHERE Room = 22; INSERT INTO Stay (Room, Since, Till, Guest, Paid) VALUES (22, DATE '2024-03-10', DATE '2024-03-20', 'Bob', 10); COMMIT;
\echo ask
SELECT * FROM Stay WHERE Room = 22 ORDER BY Room, Since;
\echo submit
BEGIN; INSERT INTO Stay (Room, Since, Till, Guest, Paid) VALUES (22, DATE '2024-03-15', DATE '2024-03-25', 'Cid', 10); DELETE FROM Stay WHERE Room = 22; COMMIT;
\echo ask
SELECT * FROM Stay WHERE Room = 22 ORDER BY Room, Since;
\echo submit
BEGIN; INSERT INTO Stay (Room, Since, Till, Guest, Paid) VALUES (23, DATE '2024-03-01', DATE '2024-04-01', 'Ada', 1); UPDATE Stay SET Paid = Paid + 1 WHERE Room = 23; UPDATE Stay SET Guest = 'Bob' WHERE Room = 23 AND Paid = 2; DELETE FROM Stay WHERE Room = 23 AND Guest = 'Ada'; COMMIT;
\echo ask
SELECT * FROM Stay WHERE Room = 23 ORDER BY Room, Since;
\echo submit
BEGIN; INSERT INTO Stay (Room, Since, Till, Guest, Paid) VALUES (24, DATE '2024-03-01', DATE '2024-04-01', 'Ada', 1); COMMIT;
\echo submit
BEGIN; UPDATE Stay SET Paid = Paid + 5, Guest = 'Bob' WHERE Room = 24 AND Guest = 'Ada' AND Paid = 1; COMMIT;
\echo ask
SELECT * FROM Stay WHERE Room = 24 ORDER BY Room, Since;
\echo submit
BEGIN; INSERT INTO Stay (Room, Since, Till, Guest, Paid) VALUES (25, DATE '2024-03-01', DATE '2024-04-01', 'Ada', 10); COMMIT;
\echo submit
BEGIN; UPDATE Stay SET Paid = 99 WHERE Room = 2500; COMMIT;
\echo submit
BEGIN; DELETE FROM Stay WHERE Room = 25 AND Guest = 'ADA'; COMMIT;
\echo ask
SELECT * FROM Stay WHERE Room = 25 ORDER BY Room, Since;
\echo submit
BEGIN; INSERT INTO Stay (Room, Since, Till, Guest, Paid) VALUES (26, DATE '2024-03-01', DATE '2024-04-01', 'Ada', 10); COMMIT;
\echo submit
BEGIN; UPDATE Stay SET Guest = '123456789' WHERE Room = 26; COMMIT;
\echo submit
BEGIN; UPDATE Stay SET Guest = '12345678' WHERE Room = 26; COMMIT;
\echo ask
SELECT * FROM Stay WHERE Room = 26 ORDER BY Room, Since;
