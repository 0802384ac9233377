\set QUIET on
\set VERBOSITY sqlstate
\pset format csv
\pset tuples_only on
SET client_min_messages = error;
\echo submit
BEGIN; INSERT INTO Booking (Nr, Since, Till, Room) VALUES (1, DATE '2024-03-01', DATE '2024-03-05', 1); COMMIT;
\echo submit
BEGIN; INSERT INTO Room (No, Since, Till, Price) VALUES (1, DATE '2024-01-01', DATE '2024-06-01', 1); COMMIT;
\echo submit
BEGIN; INSERT INTO Booking (Nr, Since, Till, Room) VALUES (1, DATE '2024-03-01', DATE '2024-03-05', 1); COMMIT;
\echo ask
SELECT * FROM Room WHERE No = 1 ORDER BY No, Since;
\echo ask
SELECT * FROM Booking WHERE Room = 1 ORDER BY Nr, Since;
\echo submit
BEGIN; INSERT INTO Room (No, Since, Till, Price) VALUES (2, DATE '2024-03-01', DATE '2024-04-01', 1); COMMIT;
\echo submit
BEGIN; INSERT INTO Booking (Nr, Since, Till, Room) VALUES (20, DATE '2024-02-29', DATE '2024-03-05', 2); COMMIT;
\echo submit
BEGIN; INSERT INTO Booking (Nr, Since, Till, Room) VALUES (20, DATE '2024-03-20', DATE '2024-04-02', 2); COMMIT;
\echo submit
BEGIN; INSERT INTO Booking (Nr, Since, Till, Room) VALUES (20, DATE '2024-03-01', DATE '2024-04-01', 2); COMMIT;
\echo ask
SELECT * FROM Room WHERE No = 2 ORDER BY No, Since;
\echo ask
SELECT * FROM Booking WHERE Room = 2 ORDER BY Nr, Since;
\echo submit
BEGIN; INSERT INTO Room (No, Since, Till, Price) VALUES (3, DATE '2024-03-01', DATE '2024-03-10', 1); INSERT INTO Room (No, Since, Till, Price) VALUES (3, DATE '2024-03-10', DATE '2024-03-20', 2); INSERT INTO Room (No, Since, Till, Price) VALUES (3, DATE '2024-03-21', DATE '2024-03-30', 3); COMMIT;
\echo submit
BEGIN; INSERT INTO Booking (Nr, Since, Till, Room) VALUES (30, DATE '2024-03-05', DATE '2024-03-15', 3); COMMIT;
\echo submit
BEGIN; INSERT INTO Booking (Nr, Since, Till, Room) VALUES (31, DATE '2024-03-15', DATE '2024-03-25', 3); COMMIT;
\echo submit
BEGIN; INSERT INTO Room (No, Since, Till, Price) VALUES (3, DATE '2024-03-20', DATE '2024-03-21', 4); INSERT INTO Booking (Nr, Since, Till, Room) VALUES (31, DATE '2024-03-15', DATE '2024-03-25', 3); COMMIT;
\echo ask
SELECT * FROM Room WHERE No = 3 ORDER BY No, Since;
\echo ask
SELECT * FROM Booking WHERE Room = 3 ORDER BY Nr, Since;
\echo submit
BEGIN; INSERT INTO Booking (Nr, Since, Till, Room) VALUES (40, DATE '2024-03-01', DATE '2024-03-05', 4); INSERT INTO Room (No, Since, Till, Price) VALUES (4, DATE '2024-03-01', DATE '2024-03-05', 1); COMMIT;
\echo ask
SELECT * FROM Room WHERE No = 4 ORDER BY No, Since;
\echo ask
SELECT * FROM Booking WHERE Room = 4 ORDER BY Nr, Since;
\echo submit
BEGIN; INSERT INTO Room (No, Since, Till, Price) VALUES (5, DATE '2024-03-01', DATE '2024-04-01', 1); COMMIT;
\echo submit
BEGIN; INSERT INTO Booking (Nr, Since, Till, Room) VALUES (50, DATE '2024-03-10', DATE '2024-03-20', 5); COMMIT;
\echo submit
BEGIN; DELETE FROM Room WHERE No = 5; COMMIT;
\echo submit
BEGIN; DELETE FROM Room WHERE No = 5; DELETE FROM Booking WHERE Room = 5; COMMIT;
\echo ask
SELECT * FROM Room WHERE No = 5 ORDER BY No, Since;
\echo ask
SELECT * FROM Booking WHERE Room = 5 ORDER BY Nr, Since;
\echo submit
BEGIN; INSERT INTO Room (No, Since, Till, Price) VALUES (6, DATE '2024-03-01', DATE '2024-04-01', 1); COMMIT;
\echo submit
BEGIN; INSERT INTO Booking (Nr, Since, Till, Room) VALUES (60, DATE '2024-03-10', DATE '2024-03-20', 6); COMMIT;
\echo submit
BEGIN; SELECT portion('room', '2024-03-01', '2024-03-10', 'No = 6', NULL); COMMIT;
\echo submit
BEGIN; SELECT portion('room', '2024-03-10', '2024-03-11', 'No = 6', NULL); COMMIT;
\echo submit
BEGIN; SELECT portion('room', '2024-03-19', '2024-03-25', 'No = 6', NULL); COMMIT;
\echo submit
BEGIN; SELECT portion('room', '2024-03-20', '2024-04-01', 'No = 6', NULL); COMMIT;
\echo ask
SELECT * FROM Room WHERE No = 6 ORDER BY No, Since;
\echo ask
SELECT * FROM Booking WHERE Room = 6 ORDER BY Nr, Since;
\echo submit
BEGIN; INSERT INTO Room (No, Since, Till, Price) VALUES (7, DATE '2024-03-01', DATE '2024-04-01', 1); COMMIT;
\echo submit
BEGIN; INSERT INTO Booking (Nr, Since, Till, Room) VALUES (70, DATE '2024-03-10', DATE '2024-03-20', 7); COMMIT;
\echo submit
BEGIN; SELECT portion('room', '2024-03-12', '2024-03-15', 'No = 7', 'Price = 9'); COMMIT;
\echo submit
BEGIN; UPDATE Room SET Price = Price + 1 WHERE No = 7; COMMIT;
\echo ask
SELECT * FROM Room WHERE No = 7 ORDER BY No, Since;
\echo ask
SELECT * FROM Booking WHERE Room = 7 ORDER BY Nr, Since;
\echo submit
BEGIN; INSERT INTO Room (No, Since, Till, Price) VALUES (8, DATE '2024-03-01', DATE '2024-04-01', 1); INSERT INTO Room (No, Since, Till, Price) VALUES (9, DATE '2024-03-10', DATE '2024-03-20', 1); COMMIT;
\echo submit
BEGIN; INSERT INTO Booking (Nr, Since, Till, Room) VALUES (80, DATE '2024-03-05', DATE '2024-03-25', 8); COMMIT;
\echo submit
BEGIN; UPDATE Booking SET Room = 9 WHERE Nr = 80; COMMIT;
\echo submit
BEGIN; SELECT portion('booking', '2024-03-09', '2024-03-20', 'Nr = 80', 'Room = 9'); COMMIT;
\echo submit
BEGIN; SELECT portion('booking', '2024-03-10', '2024-03-20', 'Nr = 80', 'Room = 9'); COMMIT;
\echo ask
SELECT * FROM Booking WHERE Nr = 80 ORDER BY Nr, Since;
\echo submit
BEGIN; SELECT portion('room', '2024-03-10', '2024-03-20', 'No = 8', NULL); COMMIT;
\echo submit
BEGIN; SELECT portion('room', '2024-03-09', '2024-03-20', 'No = 8', NULL); COMMIT;
\echo ask
SELECT * FROM Room WHERE No = 8 ORDER BY No, Since;
\echo ask
SELECT * FROM Booking WHERE Room = 8 ORDER BY Nr, Since;
\echo submit
BEGIN; INSERT INTO Room (No, Since, Till, Price) VALUES (10, DATE '2024-03-01', DATE '2024-04-01', 1); COMMIT;
\echo submit
BEGIN; INSERT INTO Booking (Nr, Since, Till, Room) VALUES (100, DATE '2024-03-10', DATE '2024-03-20', 10); COMMIT;
\echo submit
BEGIN; DELETE FROM Room WHERE No = 10; INSERT INTO Room (No, Since, Till, Price) VALUES (10, DATE '2024-03-01', DATE '2024-03-19', 1); COMMIT;
\echo submit
BEGIN; DELETE FROM Room WHERE No = 10; INSERT INTO Room (No, Since, Till, Price) VALUES (10, DATE '2024-03-01', DATE '2024-03-20', 2); COMMIT;
\echo ask
SELECT * FROM Room WHERE No = 10 ORDER BY No, Since;
\echo ask
SELECT * FROM Booking WHERE Room = 10 ORDER BY Nr, Since;
\echo submit
BEGIN; INSERT INTO Room (No, Since, Till, Price) VALUES (11, DATE '2024-03-01', DATE '2024-04-01', 1); COMMIT;
\echo submit
BEGIN; INSERT INTO Booking (Nr, Since, Till, Room) VALUES (110, DATE '2024-03-10', DATE '2024-03-20', 11); COMMIT;
\echo submit
BEGIN; SELECT portion('booking', '2024-03-15', '2024-04-01', 'Nr = 110', NULL); COMMIT;
\echo submit
BEGIN; SELECT portion('room', '2024-03-15', '2024-04-01', 'No = 11', NULL); COMMIT;
\echo submit
BEGIN; SELECT portion('room', '2024-03-14', '2024-03-15', 'No = 11', NULL); COMMIT;
\echo ask
SELECT * FROM Room WHERE No = 11 ORDER BY No, Since;
\echo ask
SELECT * FROM Booking WHERE Room = 11 ORDER BY Nr, Since;
