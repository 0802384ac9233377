\set QUIET on
\set VERBOSITY sqlstate
\pset format csv
\pset tuples_only on
SET client_min_messages = error;
\echo submit
BEGIN; SELECT portion('stay', '2024-02-29', '2024-03-05', 'Paid <= 3', 'Paid = Paid + 1'); COMMIT;
\echo submit
BEGIN; SELECT portion('stay', '2024-03-06', '2024-03-07', 'Room = 1 AND Paid > 9', 'Guest = ''Cid'''); COMMIT;
\echo submit
BEGIN; SELECT portion('stay', '2024-02-21', '2024-02-29', 'Guest < ''Bob''', 'Guest = ''Bo'', Paid = 6'); SELECT portion('stay', '2024-02-28', '2024-03-01', 'Guest <> ''Bo''', 'Paid = 0, Guest = ''bob'''); COMMIT;
\echo submit
BEGIN; INSERT INTO Stay (Room, Since, Till, Guest, Paid) VALUES (2, DATE '2024-03-01', DATE '2024-03-02', 'Bo', 8); COMMIT;
\echo submit
BEGIN; SELECT portion('stay', '2024-02-29', '2024-03-02', 'Room = 2 AND Paid < 0', NULL); SELECT portion('stay', '2024-02-29', '2024-03-01', 'Room = 1', 'Guest = ''Cid'''); COMMIT;
\echo ask
INSERT INTO Kept SELECT 5, * FROM Stay; SELECT * FROM Stay ORDER BY Room, Since;
\echo submit
BEGIN; INSERT INTO Stay (Room, Since, Till, Guest, Paid) VALUES (1, DATE '2024-02-21', DATE '2024-02-29', 'Cid', 11); SELECT portion('stay', '2024-02-28', '2024-03-02', 'Room = 2 AND Paid < 7', NULL); COMMIT;
\echo submit
BEGIN; INSERT INTO Stay (Room, Since, Till, Guest, Paid) VALUES (1, DATE '2024-02-25', DATE '2024-03-02', 'Bo', 10); COMMIT;
\echo submit
BEGIN; INSERT INTO Stay (Room, Since, Till, Guest, Paid) VALUES (2, DATE '2024-03-05', DATE '2024-03-07', 'bob', 8); COMMIT;
\echo submit
BEGIN; SELECT portion('stay', '2024-03-05', '2024-03-07', 'Room = 1 AND Paid <= 2', NULL); SELECT portion('stay', '2024-02-27', '2024-03-02', 'Guest > ''Ada''', NULL); COMMIT;
\echo submit
BEGIN; SELECT portion('stay', '2024-02-28', '2024-03-04', 'Room = 1', NULL); SELECT portion('stay', '2024-03-05', '2024-03-07', 'Room = 3', 'Guest = ''Bob'', Paid = Paid + 4'); COMMIT;
\echo ask
INSERT INTO Kept SELECT 10, * FROM Stay; SELECT * FROM Stay ORDER BY Room, Since;
\echo submit
BEGIN; INSERT INTO Stay (Room, Since, Till, Guest, Paid) VALUES (2, DATE '2024-02-22', DATE '2024-03-01', 'Bob', 5); COMMIT;
\echo submit
BEGIN; UPDATE Stay SET Paid = Paid + 3 WHERE Guest <> 'Ada'; DELETE FROM Stay WHERE Guest >= 'Ada'; SELECT portion('stay', '2024-02-27', '2024-03-05', 'true', 'Paid = 0, Guest = ''bob'''); COMMIT;
\echo submit
BEGIN; SELECT portion('stay', '2024-02-24', '2024-02-26', 'Room = 3 AND Guest <= ''Bo''', 'Paid = Paid - 4, Guest = ''Cid'''); DELETE FROM Stay WHERE Room = 2; COMMIT;
\echo submit
BEGIN; SELECT portion('stay', '2024-02-21', '2024-02-24', 'Room = 2 AND Paid >= 9', NULL); SELECT portion('stay', '2024-02-23', '2024-02-27', 'Room = 3', 'Paid = Paid + 9223372036854775800'); INSERT INTO Stay (Room, Since, Till, Guest, Paid) VALUES (2, DATE '2024-03-04', DATE '2024-03-06', 'bob', 10); COMMIT;
\echo submit
BEGIN; SELECT portion('stay', '2024-02-20', '2024-02-25', 'Room = 3', 'Paid = 0'); SELECT portion('stay', '2024-03-05', '2024-03-06', 'Room = 2', 'Paid = Paid + 9223372036854775800, Guest = ''Ada'''); SELECT portion('stay', '2024-02-27', '2024-03-04', 'Room = 3 AND Paid = 7', 'Paid = 3, Guest = ''Bob'''); COMMIT;
\echo ask
INSERT INTO Kept SELECT 15, * FROM Stay; SELECT * FROM Stay ORDER BY Room, Since;
\echo submit
BEGIN; UPDATE Stay SET Guest = 'Cid'; COMMIT;
\echo submit
BEGIN; SELECT portion('stay', '2024-02-24', '2024-02-26', 'Room = 1 AND Paid < 3', 'Guest = ''Bo'', Paid = Paid + 9223372036854775800'); COMMIT;
\echo submit
BEGIN; UPDATE Stay SET Paid = Paid + 0 WHERE Room = 1 AND Paid > 4; COMMIT;
\echo submit
BEGIN; INSERT INTO Stay (Room, Since, Till, Guest, Paid) VALUES (3, DATE '2024-02-25', DATE '2024-02-29', 'Bob', 9); DELETE FROM Stay WHERE Paid > 9 AND Guest < 'Bo'; COMMIT;
\echo submit
BEGIN; SELECT portion('stay', '2024-02-22', '2024-02-24', 'Room = 3', NULL); SELECT portion('stay', '2024-02-20', '2024-02-24', 'Room = 1 AND Guest < ''Bo''', 'Guest = ''bob'''); COMMIT;
\echo ask
INSERT INTO Kept SELECT 20, * FROM Stay; SELECT * FROM Stay ORDER BY Room, Since;
\echo submit
BEGIN; INSERT INTO Stay (Room, Since, Till, Guest, Paid) VALUES (2, DATE '2024-03-03', DATE '2024-03-05', 'bob', 10); COMMIT;
\echo submit
BEGIN; INSERT INTO Stay (Room, Since, Till, Guest, Paid) VALUES (1, DATE '2024-02-29', DATE '2024-03-01', 'bob', 8); INSERT INTO Stay (Room, Since, Till, Guest, Paid) VALUES (1, DATE '2024-02-21', DATE '2024-02-24', 'Ada', 7); INSERT INTO Stay (Room, Since, Till, Guest, Paid) VALUES (2, DATE '2024-03-06', DATE '2024-03-07', 'Cid', 11); COMMIT;
\echo submit
BEGIN; INSERT INTO Stay (Room, Since, Till, Guest, Paid) VALUES (3, DATE '2024-02-21', DATE '2024-02-22', 'Ada', 5); SELECT portion('stay', '2024-02-24', '2024-02-26', 'Guest < ''Bob''', 'Guest = ''Bob'''); COMMIT;
\echo submit
BEGIN; INSERT INTO Stay (Room, Since, Till, Guest, Paid) VALUES (1, DATE '2024-02-22', DATE '2024-03-01', 'Cid', 7); COMMIT;
\echo submit
BEGIN; INSERT INTO Stay (Room, Since, Till, Guest, Paid) VALUES (2, DATE '2024-03-01', DATE '2024-03-05', 'Bob', 2); COMMIT;
\echo ask
INSERT INTO Kept SELECT 25, * FROM Stay; SELECT * FROM Stay ORDER BY Room, Since;
\echo submit
BEGIN; INSERT INTO Stay (Room, Since, Till, Guest, Paid) VALUES (3, DATE '2024-03-02', DATE '2024-03-03', 'Cid', 8); COMMIT;
\echo submit
BEGIN; SELECT portion('stay', '2024-02-22', '2024-02-29', 'Room = 3 AND Paid <> 3 AND Guest > ''Bo''', 'Guest = ''bob'''); COMMIT;
\echo submit
BEGIN; INSERT INTO Stay (Room, Since, Till, Guest, Paid) VALUES (3, DATE '2024-02-26', DATE '2024-02-27', 'Bob', 0); INSERT INTO Stay (Room, Since, Till, Guest, Paid) VALUES (1, DATE '2024-02-21', DATE '2024-02-28', 'bob', 11); INSERT INTO Stay (Room, Since, Till, Guest, Paid) VALUES (3, DATE '2024-03-06', DATE '2024-03-07', 'Bob', 11); COMMIT;
\echo submit
BEGIN; SELECT portion('stay', '2024-02-29', '2024-03-06', 'Paid > 8', 'Guest = ''Ada'''); INSERT INTO Stay (Room, Since, Till, Guest, Paid) VALUES (2, DATE '2024-03-06', DATE '2024-03-07', 'Bo', 4); INSERT INTO Stay (Room, Since, Till, Guest, Paid) VALUES (3, DATE '2024-02-23', DATE '2024-02-28', 'Bo', 3); COMMIT;
\echo submit
BEGIN; SELECT portion('stay', '2024-02-24', '2024-02-28', 'Room = 3', 'Guest = ''Bob'', Paid = 0'); SELECT portion('stay', '2024-02-29', '2024-03-03', 'Room = 3 AND Guest > ''Ada''', 'Paid = Paid - 2'); COMMIT;
\echo ask
INSERT INTO Kept SELECT 30, * FROM Stay; SELECT * FROM Stay ORDER BY Room, Since;
\echo submit
BEGIN; SELECT portion('stay', '2024-02-26', '2024-03-04', 'Room = 1', NULL); COMMIT;
\echo submit
BEGIN; SELECT portion('stay', '2024-03-06', '2024-03-07', 'Room = 2', 'Guest = ''Bo'''); INSERT INTO Stay (Room, Since, Till, Guest, Paid) VALUES (3, DATE '2024-02-20', DATE '2024-02-24', 'Bob', 4); COMMIT;
\echo submit
BEGIN; SELECT portion('stay', '2024-02-20', '2024-02-21', 'Room = 3 AND Paid <= 3 AND Guest < ''Cid''', 'Guest = ''Bo'''); INSERT INTO Stay (Room, Since, Till, Guest, Paid) VALUES (1, DATE '2024-02-27', DATE '2024-03-04', 'Bob', 7); UPDATE Stay SET Paid = 5 WHERE Room = 1 AND Paid = 2; COMMIT;
\echo submit
BEGIN; SELECT portion('stay', '2024-02-21', '2024-02-28', 'Room = 3 AND Guest < ''Ada''', 'Paid = 7'); SELECT portion('stay', '2024-02-25', '2024-03-02', 'Room = 3 AND Paid = 8', 'Guest = ''Bob'''); COMMIT;
\echo submit
BEGIN; SELECT portion('stay', '2024-02-21', '2024-02-27', 'true', NULL); COMMIT;
\echo ask
INSERT INTO Kept SELECT 35, * FROM Stay; SELECT * FROM Stay ORDER BY Room, Since;
\echo submit
BEGIN; INSERT INTO Stay (Room, Since, Till, Guest, Paid) VALUES (2, DATE '2024-02-28', DATE '2024-03-06', 'Cid', 7); COMMIT;
\echo submit
BEGIN; SELECT portion('stay', '2024-03-04', '2024-03-05', 'true', 'Paid = Paid + 1'); INSERT INTO Stay (Room, Since, Till, Guest, Paid) VALUES (3, DATE '2024-03-02', DATE '2024-03-06', 'Bo', 8); SELECT portion('stay', '2024-02-28', '2024-03-04', 'Room = 3 AND Paid < 3', NULL); COMMIT;
\echo submit
BEGIN; INSERT INTO Stay (Room, Since, Till, Guest, Paid) VALUES (2, DATE '2024-02-23', DATE '2024-03-01', 'Ada', 7); COMMIT;
\echo submit
BEGIN; SELECT portion('stay', '2024-02-29', '2024-03-07', 'true', NULL); INSERT INTO Stay (Room, Since, Till, Guest, Paid) VALUES (3, DATE '2024-03-04', DATE '2024-03-07', 'Bob', 8); SELECT portion('stay', '2024-02-28', '2024-03-02', 'Room = 1 AND Paid > 8', 'Guest = ''Ada'''); COMMIT;
\echo submit
BEGIN; INSERT INTO Stay (Room, Since, Till, Guest, Paid) VALUES (2, DATE '2024-02-26', DATE '2024-02-28', 'Bob', 7); COMMIT;
\echo ask
INSERT INTO Kept SELECT 40, * FROM Stay; SELECT * FROM Stay ORDER BY Room, Since;
\echo submit
BEGIN; SELECT portion('stay', '2024-02-29', '2024-03-05', 'Room = 2 AND Paid <= 10', 'Paid = 2, Guest = ''Ada'''); INSERT INTO Stay (Room, Since, Till, Guest, Paid) VALUES (3, DATE '2024-02-24', DATE '2024-02-27', 'Bob', 4); COMMIT;
\echo submit
BEGIN; INSERT INTO Stay (Room, Since, Till, Guest, Paid) VALUES (3, DATE '2024-02-25', DATE '2024-03-01', 'Ada', 10); COMMIT;
\echo submit
BEGIN; UPDATE Stay SET Paid = 8 WHERE Paid <= 9 AND Guest > 'Bo'; UPDATE Stay SET Guest = 'bob' WHERE Guest >= 'Ada'; COMMIT;
\echo submit
BEGIN; UPDATE Stay SET Guest = 'Ada' WHERE Room = 1 AND Guest < 'bob'; COMMIT;
\echo submit
BEGIN; SELECT portion('stay', '2024-02-23', '2024-02-24', 'Guest >= ''Bob''', 'Guest = ''Bob'''); COMMIT;
\echo ask
INSERT INTO Kept SELECT 45, * FROM Stay; SELECT * FROM Stay ORDER BY Room, Since;
\echo submit
BEGIN; SELECT portion('stay', '2024-02-24', '2024-03-01', 'Room = 1 AND Paid > 8 AND Guest <> ''Cid''', 'Guest = ''Bob'''); COMMIT;
\echo submit
BEGIN; INSERT INTO Stay (Room, Since, Till, Guest, Paid) VALUES (3, DATE '2024-02-22', DATE '2024-02-23', 'Bo', 0); COMMIT;
\echo submit
BEGIN; SELECT portion('stay', '2024-03-02', '2024-03-07', 'Room = 3 AND Guest < ''Bo''', 'Guest = ''Cid'''); SELECT portion('stay', '2024-03-01', '2024-03-07', 'Room = 2 AND Guest <= ''Bo''', 'Paid = 4'); COMMIT;
\echo submit
BEGIN; UPDATE Stay SET Paid = Paid - 3 WHERE Room = 1; COMMIT;
\echo submit
BEGIN; UPDATE Stay SET Guest = 'Ada' WHERE Room = 3; SELECT portion('stay', '2024-02-25', '2024-02-28', 'Room = 3 AND Paid = 10', 'Guest = ''Bo'''); SELECT portion('stay', '2024-02-27', '2024-03-05', 'Room = 2', 'Paid = Paid - 4'); COMMIT;
\echo ask
INSERT INTO Kept SELECT 50, * FROM Stay; SELECT * FROM Stay ORDER BY Room, Since;
\echo submit
BEGIN; UPDATE Stay SET Paid = Paid - 1, Guest = 'Bo'; COMMIT;
\echo submit
BEGIN; INSERT INTO Stay (Room, Since, Till, Guest, Paid) VALUES (3, DATE '2024-03-05', DATE '2024-03-06', 'Ada', 2); COMMIT;
\echo submit
BEGIN; INSERT INTO Stay (Room, Since, Till, Guest, Paid) VALUES (1, DATE '2024-03-06', DATE '2024-03-07', 'bob', 10); SELECT portion('stay', '2024-02-23', '2024-03-02', 'Room = 2 AND Paid > 1', 'Guest = ''Ada'', Paid = Paid - 0'); COMMIT;
\echo submit
BEGIN; INSERT INTO Stay (Room, Since, Till, Guest, Paid) VALUES (1, DATE '2024-02-25', DATE '2024-02-26', 'Bob', 10); COMMIT;
\echo submit
BEGIN; INSERT INTO Stay (Room, Since, Till, Guest, Paid) VALUES (1, DATE '2024-02-23', DATE '2024-02-27', 'Cid', 6); COMMIT;
\echo ask
INSERT INTO Kept SELECT 55, * FROM Stay; SELECT * FROM Stay ORDER BY Room, Since;
\echo submit
BEGIN; INSERT INTO Stay (Room, Since, Till, Guest, Paid) VALUES (1, DATE '2024-03-04', DATE '2024-03-06', 'bob', 0); INSERT INTO Stay (Room, Since, Till, Guest, Paid) VALUES (3, DATE '2024-03-03', DATE '2024-03-07', 'bob', 0); COMMIT;
\echo submit
BEGIN; SELECT portion('stay', '2024-02-24', '2024-03-03', 'Room = 1 AND Guest = ''bob''', 'Paid = Paid + 2, Guest = ''Bo'''); INSERT INTO Stay (Room, Since, Till, Guest, Paid) VALUES (3, DATE '2024-02-21', DATE '2024-02-23', 'Cid', 11); COMMIT;
\echo submit
BEGIN; INSERT INTO Stay (Room, Since, Till, Guest, Paid) VALUES (1, DATE '2024-02-23', DATE '2024-02-24', 'Bob', 11); SELECT portion('stay', '2024-02-27', '2024-03-04', 'Room = 2 AND Guest <> ''Ada''', 'Paid = Paid - 1'); COMMIT;
\echo submit
BEGIN; INSERT INTO Stay (Room, Since, Till, Guest, Paid) VALUES (1, DATE '2024-02-29', DATE '2024-03-07', 'Cid', 9); COMMIT;
\echo submit
BEGIN; INSERT INTO Stay (Room, Since, Till, Guest, Paid) VALUES (3, DATE '2024-02-29', DATE '2024-03-02', 'Bob', 6); SELECT portion('stay', '2024-02-28', '2024-03-01', 'Room = 2', 'Guest = ''Ada'''); COMMIT;
\echo ask
INSERT INTO Kept SELECT 60, * FROM Stay; SELECT * FROM Stay ORDER BY Room, Since;
\echo submit
BEGIN; SELECT portion('stay', '2024-03-03', '2024-03-05', 'Room = 1 AND Guest = ''Ada''', 'Paid = Paid + 9223372036854775800'); INSERT INTO Stay (Room, Since, Till, Guest, Paid) VALUES (3, DATE '2024-03-01', DATE '2024-03-03', 'bob', 4); COMMIT;
\echo submit
BEGIN; SELECT portion('stay', '2024-02-29', '2024-03-05', 'Room = 2 AND Paid >= 5 AND Guest <= ''Bob''', NULL); INSERT INTO Stay (Room, Since, Till, Guest, Paid) VALUES (3, DATE '2024-03-04', DATE '2024-03-05', 'bob', 9); COMMIT;
\echo submit
BEGIN; DELETE FROM Stay WHERE Room = 2; INSERT INTO Stay (Room, Since, Till, Guest, Paid) VALUES (3, DATE '2024-02-23', DATE '2024-02-27', 'Bob', 10); COMMIT;
\echo submit
BEGIN; INSERT INTO Stay (Room, Since, Till, Guest, Paid) VALUES (2, DATE '2024-03-04', DATE '2024-03-05', 'Bo', 2); COMMIT;
\echo submit
BEGIN; INSERT INTO Stay (Room, Since, Till, Guest, Paid) VALUES (3, DATE '2024-02-24', DATE '2024-02-27', 'Bob', 8); UPDATE Stay SET Guest = 'Bob' WHERE Paid <> 10; SELECT portion('stay', '2024-02-21', '2024-02-25', 'Room = 2 AND Guest < ''bob''', 'Guest = ''Cid'', Paid = 5'); COMMIT;
\echo ask
INSERT INTO Kept SELECT 65, * FROM Stay; SELECT * FROM Stay ORDER BY Room, Since;
\echo submit
BEGIN; INSERT INTO Stay (Room, Since, Till, Guest, Paid) VALUES (2, DATE '2024-02-23', DATE '2024-02-24', 'Cid', 0); UPDATE Stay SET Paid = 0 WHERE Room = 3; INSERT INTO Stay (Room, Since, Till, Guest, Paid) VALUES (3, DATE '2024-02-25', DATE '2024-03-02', 'Cid', 4); COMMIT;
\echo submit
BEGIN; UPDATE Stay SET Guest = 'Bo' WHERE Room = 3; COMMIT;
\echo submit
BEGIN; SELECT portion('stay', '2024-03-04', '2024-03-06', 'Room = 1 AND Guest = ''bob''', NULL); COMMIT;
\echo submit
BEGIN; INSERT INTO Stay (Room, Since, Till, Guest, Paid) VALUES (3, DATE '2024-02-23', DATE '2024-02-24', 'Cid', 9); SELECT portion('stay', '2024-02-27', '2024-02-29', 'Paid > 10', NULL); COMMIT;
\echo submit
BEGIN; INSERT INTO Stay (Room, Since, Till, Guest, Paid) VALUES (1, DATE '2024-02-21', DATE '2024-02-29', 'Bob', 9); COMMIT;
\echo ask
INSERT INTO Kept SELECT 70, * FROM Stay; SELECT * FROM Stay ORDER BY Room, Since;
\echo submit
BEGIN; INSERT INTO Stay (Room, Since, Till, Guest, Paid) VALUES (1, DATE '2024-02-29', DATE '2024-03-01', 'Cid', 0); COMMIT;
\echo submit
BEGIN; INSERT INTO Stay (Room, Since, Till, Guest, Paid) VALUES (2, DATE '2024-03-03', DATE '2024-03-07', 'Ada', 8); INSERT INTO Stay (Room, Since, Till, Guest, Paid) VALUES (3, DATE '2024-03-05', DATE '2024-03-06', 'Ada', 2); COMMIT;
\echo submit
BEGIN; INSERT INTO Stay (Room, Since, Till, Guest, Paid) VALUES (2, DATE '2024-02-20', DATE '2024-02-26', 'Bob', 2); INSERT INTO Stay (Room, Since, Till, Guest, Paid) VALUES (3, DATE '2024-03-03', DATE '2024-03-06', 'Ada', 4); SELECT portion('stay', '2024-02-20', '2024-02-26', 'Room = 3', 'Guest = ''Bo'', Paid = 4'); COMMIT;
\echo submit
BEGIN; UPDATE Stay SET Paid = 1 WHERE Room = 1; COMMIT;
\echo submit
BEGIN; INSERT INTO Stay (Room, Since, Till, Guest, Paid) VALUES (3, DATE '2024-02-29', DATE '2024-03-03', 'Bob', 1); COMMIT;
\echo ask
INSERT INTO Kept SELECT 75, * FROM Stay; SELECT * FROM Stay ORDER BY Room, Since;
\echo submit
BEGIN; INSERT INTO Stay (Room, Since, Till, Guest, Paid) VALUES (2, DATE '2024-02-29', DATE '2024-03-04', 'bob', 3); COMMIT;
\echo submit
BEGIN; INSERT INTO Stay (Room, Since, Till, Guest, Paid) VALUES (2, DATE '2024-03-06', DATE '2024-03-07', 'bob', 4); INSERT INTO Stay (Room, Since, Till, Guest, Paid) VALUES (1, DATE '2024-02-22', DATE '2024-02-28', 'Bob', 11); COMMIT;
\echo submit
BEGIN; INSERT INTO Stay (Room, Since, Till, Guest, Paid) VALUES (2, DATE '2024-02-28', DATE '2024-03-06', 'bob', 10); COMMIT;
\echo submit
BEGIN; INSERT INTO Stay (Room, Since, Till, Guest, Paid) VALUES (2, DATE '2024-02-28', DATE '2024-03-02', 'Bob', 6); SELECT portion('stay', '2024-02-29', '2024-03-02', 'Room = 2 AND Paid <> 4 AND Guest > ''Bo''', 'Guest = ''Bob'''); COMMIT;
\echo submit
BEGIN; INSERT INTO Stay (Room, Since, Till, Guest, Paid) VALUES (1, DATE '2024-03-05', DATE '2024-03-06', 'Cid', 4); INSERT INTO Stay (Room, Since, Till, Guest, Paid) VALUES (2, DATE '2024-02-28', DATE '2024-03-06', 'Bo', 8); INSERT INTO Stay (Room, Since, Till, Guest, Paid) VALUES (3, DATE '2024-02-27', DATE '2024-02-28', 'bob', 2); COMMIT;
\echo ask
INSERT INTO Kept SELECT 80, * FROM Stay; SELECT * FROM Stay ORDER BY Room, Since;
\echo submit
BEGIN; INSERT INTO Stay (Room, Since, Till, Guest, Paid) VALUES (2, DATE '2024-02-29', DATE '2024-03-04', 'bob', 4); COMMIT;
\echo submit
BEGIN; INSERT INTO Stay (Room, Since, Till, Guest, Paid) VALUES (2, DATE '2024-02-29', DATE '2024-03-03', 'Bob', 2); COMMIT;
\echo submit
BEGIN; SELECT portion('stay', '2024-02-29', '2024-03-02', 'Room = 1', 'Guest = ''bob'''); INSERT INTO Stay (Room, Since, Till, Guest, Paid) VALUES (1, DATE '2024-02-21', DATE '2024-02-25', 'Bo', 8); COMMIT;
\echo submit
BEGIN; SELECT portion('stay', '2024-02-25', '2024-02-29', 'Room = 2', NULL); SELECT portion('stay', '2024-03-01', '2024-03-05', 'Room = 1 AND Paid >= 6', NULL); COMMIT;
\echo submit
BEGIN; INSERT INTO Stay (Room, Since, Till, Guest, Paid) VALUES (3, DATE '2024-03-04', DATE '2024-03-06', 'Cid', 2); INSERT INTO Stay (Room, Since, Till, Guest, Paid) VALUES (2, DATE '2024-03-05', DATE '2024-03-07', 'Bo', 9); INSERT INTO Stay (Room, Since, Till, Guest, Paid) VALUES (2, DATE '2024-02-25', DATE '2024-02-28', 'Cid', 2); COMMIT;
\echo ask
INSERT INTO Kept SELECT 85, * FROM Stay; SELECT * FROM Stay ORDER BY Room, Since;
\echo submit
BEGIN; SELECT portion('stay', '2024-02-24', '2024-02-25', 'Guest <= ''Cid''', 'Guest = ''Bob'''); SELECT portion('stay', '2024-02-22', '2024-02-28', 'Room = 3 AND Guest <> ''Cid''', NULL); COMMIT;
\echo submit
BEGIN; INSERT INTO Stay (Room, Since, Till, Guest, Paid) VALUES (2, DATE '2024-03-04', DATE '2024-03-06', 'Ada', 10); SELECT portion('stay', '2024-02-22', '2024-02-23', 'Room = 3', 'Guest = ''Bob'''); COMMIT;
\echo submit
BEGIN; DELETE FROM Stay WHERE Room = 1 AND Guest >= 'Ada'; UPDATE Stay SET Paid = Paid + 1, Guest = 'Cid' WHERE Room = 2; COMMIT;
\echo submit
BEGIN; INSERT INTO Stay (Room, Since, Till, Guest, Paid) VALUES (3, DATE '2024-03-04', DATE '2024-03-07', 'Bo', 1); COMMIT;
\echo submit
BEGIN; DELETE FROM Stay WHERE Room = 3; INSERT INTO Stay (Room, Since, Till, Guest, Paid) VALUES (3, DATE '2024-03-06', DATE '2024-03-07', 'bob', 2); COMMIT;
\echo ask
INSERT INTO Kept SELECT 90, * FROM Stay; SELECT * FROM Stay ORDER BY Room, Since;
\echo submit
BEGIN; INSERT INTO Stay (Room, Since, Till, Guest, Paid) VALUES (2, DATE '2024-03-06', DATE '2024-03-07', 'bob', 3); COMMIT;
\echo submit
BEGIN; SELECT portion('stay', '2024-03-06', '2024-03-07', 'Room = 3 AND Guest >= ''bob''', 'Paid = Paid - 3, Guest = ''Ada'''); SELECT portion('stay', '2024-03-02', '2024-03-03', 'Room = 1 AND Guest > ''Ada''', 'Guest = ''Ada'''); UPDATE Stay SET Guest = 'Ada' WHERE Paid = 3; COMMIT;
\echo submit
BEGIN; INSERT INTO Stay (Room, Since, Till, Guest, Paid) VALUES (2, DATE '2024-03-04', DATE '2024-03-05', 'bob', 2); DELETE FROM Stay WHERE Guest < 'Cid'; COMMIT;
\echo submit
BEGIN; INSERT INTO Stay (Room, Since, Till, Guest, Paid) VALUES (2, DATE '2024-02-23', DATE '2024-02-25', 'bob', 3); COMMIT;
\echo submit
BEGIN; INSERT INTO Stay (Room, Since, Till, Guest, Paid) VALUES (1, DATE '2024-03-01', DATE '2024-03-07', 'Bo', 7); COMMIT;
\echo ask
INSERT INTO Kept SELECT 95, * FROM Stay; SELECT * FROM Stay ORDER BY Room, Since;
\echo submit
BEGIN; INSERT INTO Stay (Room, Since, Till, Guest, Paid) VALUES (2, DATE '2024-03-03', DATE '2024-03-04', 'Ada', 9); UPDATE Stay SET Guest = 'Bo' WHERE Room = 3 AND Guest > 'Ada'; COMMIT;
\echo submit
BEGIN; INSERT INTO Stay (Room, Since, Till, Guest, Paid) VALUES (2, DATE '2024-02-29', DATE '2024-03-05', 'Bob', 7); SELECT portion('stay', '2024-02-25', '2024-02-27', 'Room = 2', 'Guest = ''Bob'', Paid = Paid - 1'); COMMIT;
\echo submit
BEGIN; UPDATE Stay SET Guest = 'Ada', Paid = Paid - 2 WHERE Room = 2; SELECT portion('stay', '2024-02-24', '2024-03-02', 'Room = 3', 'Guest = ''bob'''); INSERT INTO Stay (Room, Since, Till, Guest, Paid) VALUES (2, DATE '2024-02-26', DATE '2024-02-27', 'Bo', 6); COMMIT;
\echo submit
BEGIN; INSERT INTO Stay (Room, Since, Till, Guest, Paid) VALUES (2, DATE '2024-02-21', DATE '2024-02-25', 'bob', 2); COMMIT;
\echo submit
BEGIN; SELECT portion('stay', '2024-02-21', '2024-02-22', 'Room = 2', NULL); COMMIT;
\echo ask
INSERT INTO Kept SELECT 100, * FROM Stay; SELECT * FROM Stay ORDER BY Room, Since;
\echo submit
BEGIN; INSERT INTO Stay (Room, Since, Till, Guest, Paid) VALUES (1, DATE '2024-02-23', DATE '2024-02-29', 'Cid', 7); COMMIT;
\echo submit
BEGIN; INSERT INTO Stay (Room, Since, Till, Guest, Paid) VALUES (2, DATE '2024-03-05', DATE '2024-03-06', 'Ada', 8); COMMIT;
\echo submit
BEGIN; INSERT INTO Stay (Room, Since, Till, Guest, Paid) VALUES (1, DATE '2024-02-29', DATE '2024-03-06', 'Bo', 0); INSERT INTO Stay (Room, Since, Till, Guest, Paid) VALUES (1, DATE '2024-03-04', DATE '2024-03-06', 'Bob', 3); INSERT INTO Stay (Room, Since, Till, Guest, Paid) VALUES (1, DATE '2024-02-25', DATE '2024-03-03', 'Ada', 9); COMMIT;
\echo submit
BEGIN; UPDATE Stay SET Paid = Paid - 3 WHERE Room = 1 AND Paid <> 10 AND Guest >= 'Cid'; SELECT portion('stay', '2024-02-25', '2024-02-29', 'Room = 3 AND Guest > ''Cid''', 'Paid = 4'); SELECT portion('stay', '2024-02-26', '2024-02-28', 'true', 'Guest = ''bob'''); COMMIT;
\echo submit
BEGIN; SELECT portion('stay', '2024-02-23', '2024-03-01', 'Room = 3', 'Paid = Paid + 3'); INSERT INTO Stay (Room, Since, Till, Guest, Paid) VALUES (3, DATE '2024-02-24', DATE '2024-02-29', 'bob', 3); COMMIT;
\echo ask
INSERT INTO Kept SELECT 105, * FROM Stay; SELECT * FROM Stay ORDER BY Room, Since;
\echo submit
BEGIN; INSERT INTO Stay (Room, Since, Till, Guest, Paid) VALUES (2, DATE '2024-02-24', DATE '2024-03-03', 'Cid', 0); SELECT portion('stay', '2024-03-01', '2024-03-04', 'Room = 1 AND Paid = 11 AND Guest <> ''bob''', 'Guest = ''bob'', Paid = Paid - 4'); COMMIT;
\echo submit
BEGIN; SELECT portion('stay', '2024-02-29', '2024-03-02', 'Paid >= 5 AND Guest <= ''Bo''', NULL); INSERT INTO Stay (Room, Since, Till, Guest, Paid) VALUES (3, DATE '2024-03-03', DATE '2024-03-04', 'Cid', 7); COMMIT;
\echo submit
BEGIN; INSERT INTO Stay (Room, Since, Till, Guest, Paid) VALUES (1, DATE '2024-03-06', DATE '2024-03-07', 'Bob', 9); UPDATE Stay SET Paid = Paid - 1 WHERE Room = 3; SELECT portion('stay', '2024-03-05', '2024-03-06', 'Room = 3 AND Guest >= ''Bob''', NULL); COMMIT;
\echo submit
BEGIN; INSERT INTO Stay (Room, Since, Till, Guest, Paid) VALUES (1, DATE '2024-02-28', DATE '2024-02-29', 'Bo', 7); INSERT INTO Stay (Room, Since, Till, Guest, Paid) VALUES (3, DATE '2024-02-25', DATE '2024-02-28', 'Ada', 8); COMMIT;
\echo submit
BEGIN; INSERT INTO Stay (Room, Since, Till, Guest, Paid) VALUES (3, DATE '2024-02-20', DATE '2024-02-28', 'Cid', 6); INSERT INTO Stay (Room, Since, Till, Guest, Paid) VALUES (2, DATE '2024-02-20', DATE '2024-02-24', 'Bob', 0); INSERT INTO Stay (Room, Since, Till, Guest, Paid) VALUES (3, DATE '2024-03-06', DATE '2024-03-07', 'Bob', 0); COMMIT;
\echo ask
INSERT INTO Kept SELECT 110, * FROM Stay; SELECT * FROM Stay ORDER BY Room, Since;
\echo submit
BEGIN; SELECT portion('stay', '2024-03-06', '2024-03-07', 'Room = 1 AND Guest >= ''Cid''', 'Paid = Paid + 1, Guest = ''bob'''); SELECT portion('stay', '2024-03-01', '2024-03-02', 'Room = 1 AND Guest = ''bob''', NULL); SELECT portion('stay', '2024-03-05', '2024-03-07', 'Room = 1', NULL); COMMIT;
\echo submit
BEGIN; SELECT portion('stay', '2024-02-29', '2024-03-07', 'Room = 3 AND Paid < 8', 'Paid = Paid + 1'); INSERT INTO Stay (Room, Since, Till, Guest, Paid) VALUES (2, DATE '2024-02-24', DATE '2024-02-28', 'Bob', 4); COMMIT;
\echo submit
BEGIN; SELECT portion('stay', '2024-02-23', '2024-02-29', 'Room = 3', 'Guest = ''bob'''); COMMIT;
\echo submit
BEGIN; INSERT INTO Stay (Room, Since, Till, Guest, Paid) VALUES (2, DATE '2024-02-29', DATE '2024-03-04', 'Cid', 2); COMMIT;
\echo submit
BEGIN; INSERT INTO Stay (Room, Since, Till, Guest, Paid) VALUES (1, DATE '2024-02-24', DATE '2024-02-28', 'Cid', 0); SELECT portion('stay', '2024-02-29', '2024-03-07', 'Room = 3', 'Guest = ''Bo'''); INSERT INTO Stay (Room, Since, Till, Guest, Paid) VALUES (1, DATE '2024-02-26', DATE '2024-03-04', 'Cid', 4); COMMIT;
\echo ask
INSERT INTO Kept SELECT 115, * FROM Stay; SELECT * FROM Stay ORDER BY Room, Since;
\echo submit
BEGIN; UPDATE Stay SET Guest = 'bob' WHERE Room = 1 AND Guest > 'Ada'; SELECT portion('stay', '2024-02-23', '2024-03-02', 'Room = 1 AND Guest <= ''Ada''', NULL); COMMIT;
\echo submit
BEGIN; INSERT INTO Stay (Room, Since, Till, Guest, Paid) VALUES (2, DATE '2024-02-20', DATE '2024-02-24', 'Cid', 5); INSERT INTO Stay (Room, Since, Till, Guest, Paid) VALUES (1, DATE '2024-02-29', DATE '2024-03-03', 'Bo', 4); COMMIT;
\echo submit
BEGIN; INSERT INTO Stay (Room, Since, Till, Guest, Paid) VALUES (1, DATE '2024-02-20', DATE '2024-02-24', 'Bo', 6); SELECT portion('stay', '2024-02-22', '2024-02-26', 'Room = 1 AND Paid >= 11', 'Guest = ''Cid'''); COMMIT;
\echo submit
BEGIN; INSERT INTO Stay (Room, Since, Till, Guest, Paid) VALUES (3, DATE '2024-02-20', DATE '2024-02-26', 'Bob', 9); SELECT portion('stay', '2024-02-26', '2024-03-02', 'Room = 3 AND Guest < ''Cid''', 'Guest = ''Cid'', Paid = Paid + 1'); COMMIT;
\echo submit
BEGIN; INSERT INTO Stay (Room, Since, Till, Guest, Paid) VALUES (3, DATE '2024-03-06', DATE '2024-03-07', 'bob', 8); COMMIT;
\echo ask
INSERT INTO Kept SELECT 120, * FROM Stay; SELECT * FROM Stay ORDER BY Room, Since;
\echo ask
SELECT Room, Since, Till, Guest, Paid FROM Kept WHERE At = 5 ORDER BY Room, Since;
\echo ask
SELECT Room, Since, Till, Guest, Paid FROM Kept WHERE At = 5 AND daterange(Since, Till) @> DATE '2024-03-04' AND Paid > 3 ORDER BY Room, Since;
\echo ask
SELECT Room, Since, Till, Guest, Paid FROM Kept WHERE At = 10 ORDER BY Room, Since;
\echo ask
SELECT Room, Since, Till, Guest, Paid FROM Kept WHERE At = 10 AND daterange(Since, Till) @> DATE '2024-02-21' AND Paid > 3 ORDER BY Room, Since;
\echo ask
SELECT Room, Since, Till, Guest, Paid FROM Kept WHERE At = 15 ORDER BY Room, Since;
\echo ask
SELECT Room, Since, Till, Guest, Paid FROM Kept WHERE At = 15 AND daterange(Since, Till) @> DATE '2024-02-25' AND Paid > 3 ORDER BY Room, Since;
\echo ask
SELECT Room, Since, Till, Guest, Paid FROM Kept WHERE At = 20 ORDER BY Room, Since;
\echo ask
SELECT Room, Since, Till, Guest, Paid FROM Kept WHERE At = 20 AND daterange(Since, Till) @> DATE '2024-02-26' AND Paid > 3 ORDER BY Room, Since;
\echo ask
SELECT Room, Since, Till, Guest, Paid FROM Kept WHERE At = 25 ORDER BY Room, Since;
\echo ask
SELECT Room, Since, Till, Guest, Paid FROM Kept WHERE At = 25 AND daterange(Since, Till) @> DATE '2024-02-23' AND Paid > 3 ORDER BY Room, Since;
\echo ask
SELECT Room, Since, Till, Guest, Paid FROM Kept WHERE At = 30 ORDER BY Room, Since;
\echo ask
SELECT Room, Since, Till, Guest, Paid FROM Kept WHERE At = 30 AND daterange(Since, Till) @> DATE '2024-02-20' AND Paid > 3 ORDER BY Room, Since;
\echo ask
SELECT Room, Since, Till, Guest, Paid FROM Kept WHERE At = 35 ORDER BY Room, Since;
\echo ask
SELECT Room, Since, Till, Guest, Paid FROM Kept WHERE At = 35 AND daterange(Since, Till) @> DATE '2024-03-06' AND Paid > 3 ORDER BY Room, Since;
\echo ask
SELECT Room, Since, Till, Guest, Paid FROM Kept WHERE At = 40 ORDER BY Room, Since;
\echo ask
SELECT Room, Since, Till, Guest, Paid FROM Kept WHERE At = 40 AND daterange(Since, Till) @> DATE '2024-02-20' AND Paid > 3 ORDER BY Room, Since;
\echo ask
SELECT Room, Since, Till, Guest, Paid FROM Kept WHERE At = 45 ORDER BY Room, Since;
\echo ask
SELECT Room, Since, Till, Guest, Paid FROM Kept WHERE At = 45 AND daterange(Since, Till) @> DATE '2024-03-06' AND Paid > 3 ORDER BY Room, Since;
\echo ask
SELECT Room, Since, Till, Guest, Paid FROM Kept WHERE At = 50 ORDER BY Room, Since;
\echo ask
SELECT Room, Since, Till, Guest, Paid FROM Kept WHERE At = 50 AND daterange(Since, Till) @> DATE '2024-02-25' AND Paid > 3 ORDER BY Room, Since;
\echo ask
SELECT Room, Since, Till, Guest, Paid FROM Kept WHERE At = 55 ORDER BY Room, Since;
\echo ask
SELECT Room, Since, Till, Guest, Paid FROM Kept WHERE At = 55 AND daterange(Since, Till) @> DATE '2024-02-22' AND Paid > 3 ORDER BY Room, Since;
\echo ask
SELECT Room, Since, Till, Guest, Paid FROM Kept WHERE At = 60 ORDER BY Room, Since;
\echo ask
SELECT Room, Since, Till, Guest, Paid FROM Kept WHERE At = 60 AND daterange(Since, Till) @> DATE '2024-02-27' AND Paid > 3 ORDER BY Room, Since;
\echo ask
SELECT Room, Since, Till, Guest, Paid FROM Kept WHERE At = 65 ORDER BY Room, Since;
\echo ask
SELECT Room, Since, Till, Guest, Paid FROM Kept WHERE At = 65 AND daterange(Since, Till) @> DATE '2024-02-24' AND Paid > 3 ORDER BY Room, Since;
\echo ask
SELECT Room, Since, Till, Guest, Paid FROM Kept WHERE At = 70 ORDER BY Room, Since;
\echo ask
SELECT Room, Since, Till, Guest, Paid FROM Kept WHERE At = 70 AND daterange(Since, Till) @> DATE '2024-03-01' AND Paid > 3 ORDER BY Room, Since;
\echo ask
SELECT Room, Since, Till, Guest, Paid FROM Kept WHERE At = 75 ORDER BY Room, Since;
\echo ask
SELECT Room, Since, Till, Guest, Paid FROM Kept WHERE At = 75 AND daterange(Since, Till) @> DATE '2024-02-23' AND Paid > 3 ORDER BY Room, Since;
\echo ask
SELECT Room, Since, Till, Guest, Paid FROM Kept WHERE At = 80 ORDER BY Room, Since;
\echo ask
SELECT Room, Since, Till, Guest, Paid FROM Kept WHERE At = 80 AND daterange(Since, Till) @> DATE '2024-03-05' AND Paid > 3 ORDER BY Room, Since;
\echo ask
SELECT Room, Since, Till, Guest, Paid FROM Kept WHERE At = 85 ORDER BY Room, Since;
\echo ask
SELECT Room, Since, Till, Guest, Paid FROM Kept WHERE At = 85 AND daterange(Since, Till) @> DATE '2024-02-24' AND Paid > 3 ORDER BY Room, Since;
\echo ask
SELECT Room, Since, Till, Guest, Paid FROM Kept WHERE At = 90 ORDER BY Room, Since;
\echo ask
SELECT Room, Since, Till, Guest, Paid FROM Kept WHERE At = 90 AND daterange(Since, Till) @> DATE '2024-02-22' AND Paid > 3 ORDER BY Room, Since;
\echo ask
SELECT Room, Since, Till, Guest, Paid FROM Kept WHERE At = 95 ORDER BY Room, Since;
\echo ask
SELECT Room, Since, Till, Guest, Paid FROM Kept WHERE At = 95 AND daterange(Since, Till) @> DATE '2024-03-05' AND Paid > 3 ORDER BY Room, Since;
\echo ask
SELECT Room, Since, Till, Guest, Paid FROM Kept WHERE At = 100 ORDER BY Room, Since;
\echo ask
SELECT Room, Since, Till, Guest, Paid FROM Kept WHERE At = 100 AND daterange(Since, Till) @> DATE '2024-03-01' AND Paid > 3 ORDER BY Room, Since;
\echo ask
SELECT Room, Since, Till, Guest, Paid FROM Kept WHERE At = 105 ORDER BY Room, Since;
\echo ask
SELECT Room, Since, Till, Guest, Paid FROM Kept WHERE At = 105 AND daterange(Since, Till) @> DATE '2024-02-23' AND Paid > 3 ORDER BY Room, Since;
\echo ask
SELECT Room, Since, Till, Guest, Paid FROM Kept WHERE At = 110 ORDER BY Room, Since;
\echo ask
SELECT Room, Since, Till, Guest, Paid FROM Kept WHERE At = 110 AND daterange(Since, Till) @> DATE '2024-02-25' AND Paid > 3 ORDER BY Room, Since;
\echo ask
SELECT Room, Since, Till, Guest, Paid FROM Kept WHERE At = 115 ORDER BY Room, Since;
\echo ask
SELECT Room, Since, Till, Guest, Paid FROM Kept WHERE At = 115 AND daterange(Since, Till) @> DATE '2024-02-25' AND Paid > 3 ORDER BY Room, Since;
\echo ask
SELECT Room, Since, Till, Guest, Paid FROM Kept WHERE At = 120 ORDER BY Room, Since;
\echo ask
SELECT Room, Since, Till, Guest, Paid FROM Kept WHERE At = 120 AND daterange(Since, Till) @> DATE '2024-02-24' AND Paid > 3 ORDER BY Room, Since;
