\set QUIET on
\set VERBOSITY sqlstate
\pset format csv
\pset tuples_only on
SET client_min_messages = error;
\echo submit
BEGIN; INSERT INTO Stay (Room, Since, Till, Guest, Paid) VALUES (1, DATE '2024-03-01', DATE '2024-04-01', 'Ada', 1); INSERT INTO Stay (Room, Since, Till, Guest, Paid) VALUES (1, DATE '2024-04-05', DATE '2024-05-01', 'Bob', 2); COMMIT;
\echo submit
BEGIN; SELECT portion('stay', '2024-03-10', '2024-03-20', 'Room = 1', 'Paid = 9'); COMMIT;
\echo ask
SELECT * FROM Stay WHERE Room = 1 ORDER BY Room, Since;
\echo submit
BEGIN; INSERT INTO Stay (Room, Since, Till, Guest, Paid) VALUES (2, DATE '2024-03-01', DATE '2024-04-01', 'Ada', 1); INSERT INTO Stay (Room, Since, Till, Guest, Paid) VALUES (2, DATE '2024-04-05', DATE '2024-05-01', 'Bob', 2); COMMIT;
\echo submit
BEGIN; SELECT portion('stay', '2024-02-01', '2024-03-11', 'Room = 2', 'Paid = 9'); COMMIT;
\echo submit
BEGIN; SELECT portion('stay', '2024-04-25', '2024-06-01', 'Room = 2', 'Paid = 8'); COMMIT;
\echo ask
SELECT * FROM Stay WHERE Room = 2 ORDER BY Room, Since;
\echo submit
BEGIN; INSERT INTO Stay (Room, Since, Till, Guest, Paid) VALUES (3, DATE '2024-03-01', DATE '2024-04-01', 'Ada', 1); INSERT INTO Stay (Room, Since, Till, Guest, Paid) VALUES (3, DATE '2024-04-05', DATE '2024-05-01', 'Bob', 2); COMMIT;
\echo submit
BEGIN; SELECT portion('stay', '2024-03-01', '2024-04-01', 'Room = 3', 'Paid = 9'); COMMIT;
\echo submit
BEGIN; SELECT portion('stay', '2024-04-04', '2024-05-02', 'Room = 3', 'Guest = ''Cid'''); COMMIT;
\echo ask
SELECT * FROM Stay WHERE Room = 3 ORDER BY Room, Since;
\echo submit
BEGIN; INSERT INTO Stay (Room, Since, Till, Guest, Paid) VALUES (4, DATE '2024-03-01', DATE '2024-04-01', 'Ada', 1); INSERT INTO Stay (Room, Since, Till, Guest, Paid) VALUES (4, DATE '2024-04-05', DATE '2024-05-01', 'Bob', 2); COMMIT;
\echo submit
BEGIN; SELECT portion('stay', '2024-04-01', '2024-04-05', 'Room = 4', 'Paid = 9'); COMMIT;
\echo submit
BEGIN; SELECT portion('stay', '2024-02-01', '2024-03-01', 'Room = 4', 'Paid = 9'); COMMIT;
\echo submit
BEGIN; SELECT portion('stay', '2024-04-01', '2024-04-05', 'Room = 4', NULL); COMMIT;
\echo ask
SELECT * FROM Stay WHERE Room = 4 ORDER BY Room, Since;
\echo submit
BEGIN; INSERT INTO Stay (Room, Since, Till, Guest, Paid) VALUES (5, DATE '2024-03-01', DATE '2024-04-01', 'Ada', 1); INSERT INTO Stay (Room, Since, Till, Guest, Paid) VALUES (5, DATE '2024-04-05', DATE '2024-05-01', 'Bob', 2); COMMIT;
\echo submit
BEGIN; SELECT portion('stay', '2024-03-20', '2024-04-20', 'Room = 5', 'Paid = Paid + 10'); COMMIT;
\echo ask
SELECT * FROM Stay WHERE Room = 5 ORDER BY Room, Since;
\echo submit
BEGIN; INSERT INTO Stay (Room, Since, Till, Guest, Paid) VALUES (6, DATE '2024-03-01', DATE '2024-04-01', 'Ada', 1); INSERT INTO Stay (Room, Since, Till, Guest, Paid) VALUES (6, DATE '2024-04-05', DATE '2024-05-01', 'Bob', 2); INSERT INTO Stay (Room, Since, Till, Guest, Paid) VALUES (6, DATE '2024-05-01', DATE '2024-06-01', 'Cid', 3); COMMIT;
\echo submit
BEGIN; SELECT portion('stay', '2024-03-10', '2024-03-20', 'Room = 6', NULL); COMMIT;
\echo submit
BEGIN; SELECT portion('stay', '2024-04-01', '2024-04-10', 'Room = 6', NULL); COMMIT;
\echo submit
BEGIN; SELECT portion('stay', '2024-05-20', '2024-07-01', 'Room = 6', NULL); COMMIT;
\echo ask
SELECT * FROM Stay WHERE Room = 6 ORDER BY Room, Since;
\echo submit
BEGIN; INSERT INTO Stay (Room, Since, Till, Guest, Paid) VALUES (7, DATE '2024-03-01', DATE '2024-04-01', 'Ada', 1); INSERT INTO Stay (Room, Since, Till, Guest, Paid) VALUES (7, DATE '2024-04-05', DATE '2024-05-01', 'Bob', 2); COMMIT;
\echo submit
BEGIN; SELECT portion('stay', '2024-03-20', '2024-04-20', 'Room = 7', NULL); COMMIT;
\echo ask
SELECT * FROM Stay WHERE Room = 7 ORDER BY Room, Since;
\echo submit
BEGIN; SELECT portion('stay', '0001-01-01', '9999-12-31', 'Room = 7', NULL); COMMIT;
\echo ask
SELECT * FROM Stay WHERE Room = 7 ORDER BY Room, Since;
\echo submit
BEGIN; INSERT INTO Stay (Room, Since, Till, Guest, Paid) VALUES (8, DATE '2024-03-01', DATE '2024-04-01', 'Ada', 1); INSERT INTO Stay (Room, Since, Till, Guest, Paid) VALUES (8, DATE '2024-04-05', DATE '2024-05-01', 'Bob', 2); COMMIT;
\echo submit
BEGIN; SELECT portion('stay', '2024-03-31', '2024-04-01', 'Room = 8', 'Paid = 9'); COMMIT;
\echo submit
BEGIN; SELECT portion('stay', '2024-04-05', '2024-04-06', 'Room = 8', NULL); COMMIT;
\echo ask
SELECT * FROM Stay WHERE Room = 8 ORDER BY Room, Since;
\echo submit
BEGIN; INSERT INTO Stay (Room, Since, Till, Guest, Paid) VALUES (9, DATE '2024-03-01', DATE '2024-04-01', 'Ada', 1); INSERT INTO Stay (Room, Since, Till, Guest, Paid) VALUES (9, DATE '2024-04-05', DATE '2024-05-01', 'Bob', 2); COMMIT;
\echo submit
BEGIN; SELECT portion('stay', '2024-03-20', '2024-04-20', 'Room = 9 AND Guest = ''Bob''', 'Paid = 9'); COMMIT;
\echo submit
BEGIN; SELECT portion('stay', '2024-03-20', '2024-04-20', 'Room = 9 AND Paid < 2', NULL); COMMIT;
\echo ask
SELECT * FROM Stay WHERE Room = 9 ORDER BY Room, Since;
\echo submit
BEGIN; INSERT INTO Stay (Room, Since, Till, Guest, Paid) VALUES (10, DATE '2024-03-01', DATE '2024-04-01', 'Ada', 1); INSERT INTO Stay (Room, Since, Till, Guest, Paid) VALUES (10, DATE '2024-04-05', DATE '2024-05-01', 'Bob', 2); COMMIT;
\echo submit
BEGIN; SELECT portion('stay', '2024-03-05', '2024-03-25', 'Room = 10', 'Paid = Paid + 10'); SELECT portion('stay', '2024-03-10', '2024-03-15', 'Room = 10', 'Paid = Paid + 100'); SELECT portion('stay', '2024-03-20', '2024-04-10', 'Room = 10', 'Paid = Paid + 1000'); COMMIT;
\echo ask
SELECT * FROM Stay WHERE Room = 10 ORDER BY Room, Since;
\echo submit
BEGIN; INSERT INTO Stay (Room, Since, Till, Guest, Paid) VALUES (11, DATE '2024-03-01', DATE '2024-04-01', 'Ada', 1); INSERT INTO Stay (Room, Since, Till, Guest, Paid) VALUES (11, DATE '2024-04-05', DATE '2024-05-01', 'Bob', 2); COMMIT;
\echo submit
BEGIN; SELECT portion('stay', '2024-03-05', '2024-03-25', 'Room = 11', 'Paid = 9'); COMMIT;
\echo submit
BEGIN; UPDATE Stay SET Guest = 'Cid' WHERE Room = 11 AND Paid = 9; COMMIT;
\echo submit
BEGIN; DELETE FROM Stay WHERE Room = 11 AND Guest = 'Ada'; COMMIT;
\echo ask
SELECT * FROM Stay WHERE Room = 11 ORDER BY Room, Since;
\echo submit
BEGIN; INSERT INTO Stay (Room, Since, Till, Guest, Paid) VALUES (12, DATE '2024-03-01', DATE '2024-04-01', 'Ada', 1); INSERT INTO Stay (Room, Since, Till, Guest, Paid) VALUES (12, DATE '2024-04-05', DATE '2024-05-01', 'Bob', 2); COMMIT;
\echo submit
BEGIN; SELECT portion('stay', '2024-03-10', '2024-03-20', 'Room = 12', NULL); COMMIT;
\echo submit
BEGIN; INSERT INTO Stay (Room, Since, Till, Guest, Paid) VALUES (12, DATE '2024-03-09', DATE '2024-03-12', 'Cid', 3); COMMIT;
\echo submit
BEGIN; INSERT INTO Stay (Room, Since, Till, Guest, Paid) VALUES (12, DATE '2024-03-18', DATE '2024-03-21', 'Cid', 3); COMMIT;
\echo submit
BEGIN; INSERT INTO Stay (Room, Since, Till, Guest, Paid) VALUES (12, DATE '2024-03-10', DATE '2024-03-20', 'Cid', 3); COMMIT;
\echo ask
SELECT * FROM Stay WHERE Room = 12 ORDER BY Room, Since;
\echo submit
BEGIN; INSERT INTO Stay (Room, Since, Till, Guest, Paid) VALUES (13, DATE '2024-03-01', DATE '2024-04-01', 'Ada', 1); INSERT INTO Stay (Room, Since, Till, Guest, Paid) VALUES (13, DATE '2024-04-05', DATE '2024-05-01', 'Bob', 2); COMMIT;
\echo submit
BEGIN; SELECT portion('stay', '2024-03-10', '2024-03-20', 'Room = 13', 'Paid = 1'); COMMIT;
\echo ask
SELECT * FROM Stay WHERE Room = 13 ORDER BY Room, Since;
\echo submit
BEGIN; INSERT INTO Stay (Room, Since, Till, Guest, Paid) VALUES (14, DATE '2024-03-01', DATE '2024-04-01', 'Ada', 9223372036854775807); COMMIT;
\echo submit
BEGIN; UPDATE Stay SET Guest = 'Bob' WHERE Room = 14; SELECT portion('stay', '2024-03-10', '2024-03-20', 'Room = 14', 'Paid = Paid + 1'); COMMIT;
\echo ask
SELECT * FROM Stay WHERE Room = 14 ORDER BY Room, Since;
\echo submit
BEGIN; SELECT portion('stay', '2024-03-10', '2024-03-20', 'Room = 14', 'Paid = Paid - 1'); COMMIT;
\echo ask
SELECT * FROM Stay WHERE Room = 14 ORDER BY Room, Since;
\echo submit
BEGIN; INSERT INTO Stay (Room, Since, Till, Guest, Paid) VALUES (15, DATE '2024-03-01', DATE '2024-04-01', 'Ada', 1); INSERT INTO Stay (Room, Since, Till, Guest, Paid) VALUES (15, DATE '2024-04-05', DATE '2024-05-01', 'Bob', 2); COMMIT;
\echo submit
BEGIN; SELECT portion('stay', '2024-03-20', '2024-03-10', 'Room = 15', 'Paid = 9'); COMMIT;
\echo submit
BEGIN; SELECT portion('stay', '2024-03-20', '2024-03-10', 'Room = 15', NULL); COMMIT;
\echo submit
BEGIN; SELECT portion('stay', '2024-02-30', '2024-03-10', 'Room = 15', 'Paid = 9'); COMMIT;
\echo ask
SELECT * FROM Stay WHERE Room = 15 ORDER BY Room, Since;
\echo submit
BEGIN; INSERT INTO Stay (Room, Since, Till, Guest, Paid) VALUES (16, DATE '2024-03-01', DATE '2024-04-01', 'Ada', 1); INSERT INTO Stay (Room, Since, Till, Guest, Paid) VALUES (16, DATE '2024-04-05', DATE '2024-05-01', 'Bob', 2); COMMIT;
\echo submit
BEGIN; SELECT portion('stay', '2024-03-10', '2024-03-20', 'Room = 16', 'Guest = ''123456789'''); COMMIT;
\echo ask
SELECT * FROM Stay WHERE Room = 16 ORDER BY Room, Since;
\echo submit
BEGIN; INSERT INTO Stay (Room, Since, Till, Guest, Paid) VALUES (17, DATE '2024-03-01', DATE '2024-03-02', 'Ada', 1); INSERT INTO Stay (Room, Since, Till, Guest, Paid) VALUES (17, DATE '2024-03-02', DATE '2024-03-03', 'Ada', 2); INSERT INTO Stay (Room, Since, Till, Guest, Paid) VALUES (17, DATE '2024-03-03', DATE '2024-03-04', 'Ada', 3); INSERT INTO Stay (Room, Since, Till, Guest, Paid) VALUES (17, DATE '2024-03-04', DATE '2024-03-05', 'Ada', 4); INSERT INTO Stay (Room, Since, Till, Guest, Paid) VALUES (17, DATE '2024-03-05', DATE '2024-03-06', 'Ada', 5); INSERT INTO Stay (Room, Since, Till, Guest, Paid) VALUES (17, DATE '2024-03-06', DATE '2024-03-07', 'Ada', 6); INSERT INTO Stay (Room, Since, Till, Guest, Paid) VALUES (17, DATE '2024-03-07', DATE '2024-03-08', 'Ada', 7); INSERT INTO Stay (Room, Since, Till, Guest, Paid) VALUES (17, DATE '2024-03-08', DATE '2024-03-09', 'Ada', 8); INSERT INTO Stay (Room, Since, Till, Guest, Paid) VALUES (17, DATE '2024-03-09', DATE '2024-03-10', 'Ada', 9); INSERT INTO Stay (Room, Since, Till, Guest, Paid) VALUES (17, DATE '2024-03-10', DATE '2024-03-11', 'Ada', 10); INSERT INTO Stay (Room, Since, Till, Guest, Paid) VALUES (17, DATE '2024-03-11', DATE '2024-03-12', 'Ada', 11); INSERT INTO Stay (Room, Since, Till, Guest, Paid) VALUES (17, DATE '2024-03-12', DATE '2024-03-13', 'Ada', 12); INSERT INTO Stay (Room, Since, Till, Guest, Paid) VALUES (17, DATE '2024-03-13', DATE '2024-03-14', 'Ada', 13); INSERT INTO Stay (Room, Since, Till, Guest, Paid) VALUES (17, DATE '2024-03-14', DATE '2024-03-15', 'Ada', 14); INSERT INTO Stay (Room, Since, Till, Guest, Paid) VALUES (17, DATE '2024-03-15', DATE '2024-03-16', 'Ada', 15); INSERT INTO Stay (Room, Since, Till, Guest, Paid) VALUES (17, DATE '2024-03-16', DATE '2024-03-17', 'Ada', 16); COMMIT;
\echo submit
BEGIN; SELECT portion('stay', '2024-03-05', '2024-03-12', 'Room = 17', 'Paid = Paid + 100'); COMMIT;
\echo submit
BEGIN; SELECT portion('stay', '2024-03-08', '2024-03-10', 'Room = 17', NULL); COMMIT;
\echo ask
SELECT * FROM Stay WHERE Room = 17 ORDER BY Room, Since;
\echo submit
BEGIN; INSERT INTO Stay (Room, Since, Till, Guest, Paid) VALUES (18, DATE '2024-03-01', DATE '2024-04-01', 'Eve', 10); INSERT INTO Stay (Room, Since, Till, Guest, Paid) VALUES (19, DATE '2024-03-15', DATE '2024-04-15', 'Eve', 10); INSERT INTO Stay (Room, Since, Till, Guest, Paid) VALUES (20, DATE '2024-04-01', DATE '2024-05-01', 'Eve', 10); COMMIT;
\echo submit
BEGIN; SELECT portion('stay', '2024-03-10', '2024-03-20', 'Guest = ''Eve''', 'Paid = 9'); COMMIT;
\echo submit
BEGIN; SELECT portion('stay', '2024-03-25', '2024-04-05', 'Guest = ''Eve''', NULL); COMMIT;
\echo ask
SELECT * FROM Stay WHERE Guest = 'Eve' ORDER BY Room, Since;
