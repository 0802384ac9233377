\set QUIET on
\set VERBOSITY sqlstate
\pset format csv
\pset tuples_only on
SET client_min_messages = error;
\echo submit
BEGIN; INSERT INTO Room (No, Since, Till, Price) VALUES (3, DATE '2024-02-23', DATE '2024-02-24', 6); INSERT INTO Booking (Nr, Since, Till, Room) VALUES (2, DATE '2024-02-21', DATE '2024-02-25', 3); COMMIT;
\echo submit
BEGIN; SELECT portion('booking', '2024-03-06', '2024-03-07', 'Nr = 2', NULL); COMMIT;
\echo submit
BEGIN; INSERT INTO Booking (Nr, Since, Till, Room) VALUES (3, DATE '2024-02-21', DATE '2024-02-23', 1); COMMIT;
\echo submit
BEGIN; INSERT INTO Booking (Nr, Since, Till, Room) VALUES (3, DATE '2024-03-01', DATE '2024-03-03', 1); INSERT INTO Booking (Nr, Since, Till, Room) VALUES (1, DATE '2024-02-27', DATE '2024-03-02', 2); COMMIT;
\echo submit
BEGIN; INSERT INTO Room (No, Since, Till, Price) VALUES (2, DATE '2024-03-03', DATE '2024-03-07', 4); COMMIT;
\echo ask
SELECT * FROM Room ORDER BY No, Since;
\echo ask
SELECT * FROM Booking ORDER BY Nr, Since;
\echo submit
BEGIN; UPDATE Booking SET Room = 3 WHERE Nr = 3; INSERT INTO Room (No, Since, Till, Price) VALUES (1, DATE '2024-03-06', DATE '2024-03-07', 0); UPDATE Booking SET Room = 1 WHERE Nr = 1; COMMIT;
\echo submit
BEGIN; SELECT portion('room', '2024-02-23', '2024-02-24', 'No = 2', NULL); COMMIT;
\echo submit
BEGIN; UPDATE Booking SET Room = 1 WHERE Nr = 2; COMMIT;
\echo submit
BEGIN; UPDATE Booking SET Room = 1 WHERE Nr = 3; COMMIT;
\echo submit
BEGIN; SELECT portion('room', '2024-03-03', '2024-03-07', 'No = 3', NULL); INSERT INTO Booking (Nr, Since, Till, Room) VALUES (3, DATE '2024-02-21', DATE '2024-02-27', 2); COMMIT;
\echo ask
SELECT * FROM Room ORDER BY No, Since;
\echo ask
SELECT * FROM Booking ORDER BY Nr, Since;
\echo submit
BEGIN; SELECT portion('room', '2024-03-03', '2024-03-07', 'No = 2', 'Price = Price + 1'); COMMIT;
\echo submit
BEGIN; DELETE FROM Booking WHERE Room = 2; COMMIT;
\echo submit
BEGIN; INSERT INTO Room (No, Since, Till, Price) VALUES (2, DATE '2024-03-06', DATE '2024-03-07', 4); COMMIT;
\echo submit
BEGIN; SELECT portion('booking', '2024-03-01', '2024-03-05', 'Room = 3', 'Room = 1'); SELECT portion('room', '2024-02-21', '2024-02-23', 'No = 1', NULL); COMMIT;
\echo submit
BEGIN; INSERT INTO Booking (Nr, Since, Till, Room) VALUES (2, DATE '2024-02-20', DATE '2024-02-22', 1); INSERT INTO Booking (Nr, Since, Till, Room) VALUES (1, DATE '2024-03-02', DATE '2024-03-04', 3); COMMIT;
\echo ask
SELECT * FROM Room ORDER BY No, Since;
\echo ask
SELECT * FROM Booking ORDER BY Nr, Since;
\echo submit
BEGIN; SELECT portion('room', '2024-03-03', '2024-03-05', 'No = 2', 'Price = Price + 1'); COMMIT;
\echo submit
BEGIN; SELECT portion('room', '2024-03-03', '2024-03-04', 'No = 1', NULL); INSERT INTO Booking (Nr, Since, Till, Room) VALUES (3, DATE '2024-02-25', DATE '2024-03-04', 1); INSERT INTO Booking (Nr, Since, Till, Room) VALUES (1, DATE '2024-02-22', DATE '2024-02-25', 1); COMMIT;
\echo submit
BEGIN; SELECT portion('booking', '2024-02-22', '2024-03-01', 'Nr = 2', NULL); INSERT INTO Booking (Nr, Since, Till, Room) VALUES (2, DATE '2024-03-05', DATE '2024-03-07', 1); COMMIT;
\echo submit
BEGIN; INSERT INTO Room (No, Since, Till, Price) VALUES (1, DATE '2024-02-27', DATE '2024-03-05', 7); COMMIT;
\echo submit
BEGIN; SELECT portion('room', '2024-02-24', '2024-03-01', 'No = 2', 'Price = Price + 1'); SELECT portion('booking', '2024-02-26', '2024-03-01', 'Room = 3', 'Room = 2'); SELECT portion('booking', '2024-02-20', '2024-02-27', 'Nr = 2', NULL); COMMIT;
\echo ask
SELECT * FROM Room ORDER BY No, Since;
\echo ask
SELECT * FROM Booking ORDER BY Nr, Since;
\echo submit
BEGIN; DELETE FROM Booking WHERE Room = 2; COMMIT;
\echo submit
BEGIN; INSERT INTO Room (No, Since, Till, Price) VALUES (3, DATE '2024-02-28', DATE '2024-03-05', 1); COMMIT;
\echo submit
BEGIN; INSERT INTO Booking (Nr, Since, Till, Room) VALUES (3, DATE '2024-02-24', DATE '2024-02-29', 1); COMMIT;
\echo submit
BEGIN; SELECT portion('booking', '2024-02-23', '2024-02-28', 'Room = 1', 'Room = 3'); INSERT INTO Booking (Nr, Since, Till, Room) VALUES (1, DATE '2024-02-22', DATE '2024-02-25', 2); COMMIT;
\echo submit
BEGIN; SELECT portion('booking', '2024-02-28', '2024-03-04', 'Room = 1', 'Room = 1'); INSERT INTO Booking (Nr, Since, Till, Room) VALUES (3, DATE '2024-02-28', DATE '2024-03-05', 2); COMMIT;
\echo ask
SELECT * FROM Room ORDER BY No, Since;
\echo ask
SELECT * FROM Booking ORDER BY Nr, Since;
\echo submit
BEGIN; UPDATE Booking SET Room = 2 WHERE Nr = 3; INSERT INTO Booking (Nr, Since, Till, Room) VALUES (2, DATE '2024-02-28', DATE '2024-03-02', 2); COMMIT;
\echo submit
BEGIN; DELETE FROM Room WHERE No = 1; COMMIT;
\echo submit
BEGIN; INSERT INTO Booking (Nr, Since, Till, Room) VALUES (2, DATE '2024-03-06', DATE '2024-03-07', 2); COMMIT;
\echo submit
BEGIN; INSERT INTO Booking (Nr, Since, Till, Room) VALUES (3, DATE '2024-02-25', DATE '2024-03-01', 2); COMMIT;
\echo submit
BEGIN; SELECT portion('booking', '2024-03-05', '2024-03-06', 'Room = 3', 'Room = 2'); COMMIT;
\echo ask
SELECT * FROM Room ORDER BY No, Since;
\echo ask
SELECT * FROM Booking ORDER BY Nr, Since;
\echo submit
BEGIN; INSERT INTO Booking (Nr, Since, Till, Room) VALUES (1, DATE '2024-02-23', DATE '2024-02-26', 1); COMMIT;
\echo submit
BEGIN; INSERT INTO Room (No, Since, Till, Price) VALUES (2, DATE '2024-02-26', DATE '2024-03-01', 6); COMMIT;
\echo submit
BEGIN; INSERT INTO Booking (Nr, Since, Till, Room) VALUES (2, DATE '2024-03-04', DATE '2024-03-06', 1); COMMIT;
\echo submit
BEGIN; SELECT portion('room', '2024-02-28', '2024-03-05', 'No = 3', 'Price = Price + 1'); INSERT INTO Booking (Nr, Since, Till, Room) VALUES (1, DATE '2024-02-26', DATE '2024-02-27', 1); COMMIT;
\echo submit
BEGIN; SELECT portion('room', '2024-03-04', '2024-03-05', 'No = 1', NULL); INSERT INTO Room (No, Since, Till, Price) VALUES (2, DATE '2024-02-24', DATE '2024-02-26', 3); COMMIT;
\echo ask
SELECT * FROM Room ORDER BY No, Since;
\echo ask
SELECT * FROM Booking ORDER BY Nr, Since;
\echo submit
BEGIN; INSERT INTO Booking (Nr, Since, Till, Room) VALUES (3, DATE '2024-02-29', DATE '2024-03-06', 3); COMMIT;
\echo submit
BEGIN; INSERT INTO Room (No, Since, Till, Price) VALUES (2, DATE '2024-03-05', DATE '2024-03-07', 2); INSERT INTO Booking (Nr, Since, Till, Room) VALUES (1, DATE '2024-02-21', DATE '2024-02-26', 1); COMMIT;
\echo submit
BEGIN; INSERT INTO Booking (Nr, Since, Till, Room) VALUES (2, DATE '2024-03-04', DATE '2024-03-06', 2); INSERT INTO Booking (Nr, Since, Till, Room) VALUES (1, DATE '2024-02-26', DATE '2024-03-01', 3); COMMIT;
\echo submit
BEGIN; INSERT INTO Room (No, Since, Till, Price) VALUES (2, DATE '2024-03-01', DATE '2024-03-07', 2); COMMIT;
\echo submit
BEGIN; INSERT INTO Room (No, Since, Till, Price) VALUES (3, DATE '2024-02-26', DATE '2024-02-29', 8); UPDATE Booking SET Room = 3 WHERE Nr = 3; COMMIT;
\echo ask
SELECT * FROM Room ORDER BY No, Since;
\echo ask
SELECT * FROM Booking ORDER BY Nr, Since;
\echo submit
BEGIN; SELECT portion('booking', '2024-02-22', '2024-02-26', 'Nr = 2', NULL); SELECT portion('booking', '2024-03-02', '2024-03-03', 'Room = 2', 'Room = 3'); INSERT INTO Booking (Nr, Since, Till, Room) VALUES (1, DATE '2024-02-23', DATE '2024-02-25', 1); COMMIT;
\echo submit
BEGIN; SELECT portion('room', '2024-03-05', '2024-03-07', 'No = 3', NULL); UPDATE Booking SET Room = 2 WHERE Nr = 3; DELETE FROM Room WHERE No = 2; COMMIT;
\echo submit
BEGIN; SELECT portion('booking', '2024-03-04', '2024-03-05', 'Room = 3', 'Room = 1'); COMMIT;
\echo submit
BEGIN; SELECT portion('room', '2024-03-01', '2024-03-04', 'No = 1', 'Price = Price + 1'); INSERT INTO Booking (Nr, Since, Till, Room) VALUES (3, DATE '2024-02-29', DATE '2024-03-04', 3); COMMIT;
\echo submit
BEGIN; INSERT INTO Booking (Nr, Since, Till, Room) VALUES (3, DATE '2024-02-28', DATE '2024-02-29', 2); COMMIT;
\echo ask
SELECT * FROM Room ORDER BY No, Since;
\echo ask
SELECT * FROM Booking ORDER BY Nr, Since;
\echo submit
BEGIN; UPDATE Booking SET Room = 2 WHERE Nr = 1; COMMIT;
\echo submit
BEGIN; INSERT INTO Room (No, Since, Till, Price) VALUES (2, DATE '2024-02-23', DATE '2024-03-01', 2); COMMIT;
\echo submit
BEGIN; INSERT INTO Booking (Nr, Since, Till, Room) VALUES (3, DATE '2024-02-25', DATE '2024-02-26', 1); COMMIT;
\echo submit
BEGIN; INSERT INTO Booking (Nr, Since, Till, Room) VALUES (1, DATE '2024-02-23', DATE '2024-02-26', 1); COMMIT;
\echo submit
BEGIN; INSERT INTO Booking (Nr, Since, Till, Room) VALUES (3, DATE '2024-03-02', DATE '2024-03-03', 2); INSERT INTO Room (No, Since, Till, Price) VALUES (3, DATE '2024-02-23', DATE '2024-02-26', 2); COMMIT;
\echo ask
SELECT * FROM Room ORDER BY No, Since;
\echo ask
SELECT * FROM Booking ORDER BY Nr, Since;
\echo submit
BEGIN; INSERT INTO Room (No, Since, Till, Price) VALUES (3, DATE '2024-02-23', DATE '2024-02-29', 1); INSERT INTO Room (No, Since, Till, Price) VALUES (3, DATE '2024-03-02', DATE '2024-03-03', 8); DELETE FROM Booking WHERE Room = 2; COMMIT;
\echo submit
BEGIN; SELECT portion('booking', '2024-02-21', '2024-02-27', 'Room = 2', 'Room = 1'); COMMIT;
\echo submit
BEGIN; INSERT INTO Room (No, Since, Till, Price) VALUES (2, DATE '2024-03-03', DATE '2024-03-05', 0); INSERT INTO Booking (Nr, Since, Till, Room) VALUES (3, DATE '2024-03-02', DATE '2024-03-03', 3); DELETE FROM Booking WHERE Room = 2; COMMIT;
\echo submit
BEGIN; UPDATE Booking SET Room = 2 WHERE Nr = 1; INSERT INTO Booking (Nr, Since, Till, Room) VALUES (2, DATE '2024-03-02', DATE '2024-03-06', 3); COMMIT;
\echo submit
BEGIN; INSERT INTO Room (No, Since, Till, Price) VALUES (3, DATE '2024-03-04', DATE '2024-03-06', 7); INSERT INTO Room (No, Since, Till, Price) VALUES (2, DATE '2024-03-04', DATE '2024-03-07', 3); COMMIT;
\echo ask
SELECT * FROM Room ORDER BY No, Since;
\echo ask
SELECT * FROM Booking ORDER BY Nr, Since;
\echo submit
BEGIN; SELECT portion('room', '2024-02-21', '2024-02-25', 'No = 1', 'Price = Price + 1'); INSERT INTO Booking (Nr, Since, Till, Room) VALUES (2, DATE '2024-03-06', DATE '2024-03-07', 2); COMMIT;
\echo submit
BEGIN; INSERT INTO Booking (Nr, Since, Till, Room) VALUES (3, DATE '2024-03-06', DATE '2024-03-07', 1); SELECT portion('room', '2024-03-03', '2024-03-07', 'No = 2', NULL); COMMIT;
\echo submit
BEGIN; INSERT INTO Booking (Nr, Since, Till, Room) VALUES (3, DATE '2024-02-27', DATE '2024-03-01', 1); INSERT INTO Booking (Nr, Since, Till, Room) VALUES (3, DATE '2024-02-20', DATE '2024-02-26', 2); COMMIT;
\echo submit
BEGIN; INSERT INTO Booking (Nr, Since, Till, Room) VALUES (1, DATE '2024-03-06', DATE '2024-03-07', 2); COMMIT;
\echo submit
BEGIN; INSERT INTO Room (No, Since, Till, Price) VALUES (3, DATE '2024-03-01', DATE '2024-03-05', 0); COMMIT;
\echo ask
SELECT * FROM Room ORDER BY No, Since;
\echo ask
SELECT * FROM Booking ORDER BY Nr, Since;
\echo submit
BEGIN; UPDATE Booking SET Room = 3 WHERE Nr = 1; DELETE FROM Booking WHERE Room = 3; COMMIT;
\echo submit
BEGIN; DELETE FROM Booking WHERE Room = 1; SELECT portion('booking', '2024-02-28', '2024-02-29', 'Room = 3', 'Room = 3'); INSERT INTO Room (No, Since, Till, Price) VALUES (3, DATE '2024-03-06', DATE '2024-03-07', 1); COMMIT;
\echo submit
BEGIN; SELECT portion('booking', '2024-03-02', '2024-03-05', 'Room = 1', 'Room = 2'); COMMIT;
\echo submit
BEGIN; INSERT INTO Booking (Nr, Since, Till, Room) VALUES (2, DATE '2024-02-21', DATE '2024-02-23', 1); COMMIT;
\echo submit
BEGIN; INSERT INTO Booking (Nr, Since, Till, Room) VALUES (1, DATE '2024-03-04', DATE '2024-03-05', 2); COMMIT;
\echo ask
SELECT * FROM Room ORDER BY No, Since;
\echo ask
SELECT * FROM Booking ORDER BY Nr, Since;
\echo submit
BEGIN; INSERT INTO Room (No, Since, Till, Price) VALUES (3, DATE '2024-02-24', DATE '2024-03-01', 0); SELECT portion('room', '2024-03-02', '2024-03-06', 'No = 3', 'Price = Price + 1'); COMMIT;
\echo submit
BEGIN; INSERT INTO Booking (Nr, Since, Till, Room) VALUES (2, DATE '2024-02-23', DATE '2024-03-01', 1); COMMIT;
\echo submit
BEGIN; INSERT INTO Booking (Nr, Since, Till, Room) VALUES (2, DATE '2024-03-06', DATE '2024-03-07', 3); COMMIT;
\echo submit
BEGIN; INSERT INTO Booking (Nr, Since, Till, Room) VALUES (1, DATE '2024-02-23', DATE '2024-02-26', 2); INSERT INTO Room (No, Since, Till, Price) VALUES (2, DATE '2024-03-05', DATE '2024-03-07', 8); COMMIT;
\echo submit
BEGIN; INSERT INTO Room (No, Since, Till, Price) VALUES (1, DATE '2024-02-27', DATE '2024-03-02', 2); COMMIT;
\echo ask
SELECT * FROM Room ORDER BY No, Since;
\echo ask
SELECT * FROM Booking ORDER BY Nr, Since;
\echo submit
BEGIN; INSERT INTO Booking (Nr, Since, Till, Room) VALUES (2, DATE '2024-02-25', DATE '2024-03-01', 2); COMMIT;
\echo submit
BEGIN; SELECT portion('booking', '2024-02-29', '2024-03-03', 'Room = 3', 'Room = 2'); COMMIT;
\echo submit
BEGIN; INSERT INTO Room (No, Since, Till, Price) VALUES (2, DATE '2024-02-25', DATE '2024-02-27', 0); INSERT INTO Booking (Nr, Since, Till, Room) VALUES (3, DATE '2024-02-22', DATE '2024-02-26', 2); DELETE FROM Booking WHERE Room = 3; COMMIT;
\echo submit
BEGIN; INSERT INTO Room (No, Since, Till, Price) VALUES (3, DATE '2024-02-21', DATE '2024-02-28', 7); COMMIT;
\echo submit
BEGIN; INSERT INTO Room (No, Since, Till, Price) VALUES (1, DATE '2024-02-21', DATE '2024-02-28', 5); SELECT portion('booking', '2024-03-06', '2024-03-07', 'Nr = 1', NULL); COMMIT;
\echo ask
SELECT * FROM Room ORDER BY No, Since;
\echo ask
SELECT * FROM Booking ORDER BY Nr, Since;
\echo submit
BEGIN; DELETE FROM Room WHERE No = 3; INSERT INTO Booking (Nr, Since, Till, Room) VALUES (3, DATE '2024-02-22', DATE '2024-02-26', 3); COMMIT;
\echo submit
BEGIN; INSERT INTO Room (No, Since, Till, Price) VALUES (3, DATE '2024-03-02', DATE '2024-03-05', 8); INSERT INTO Booking (Nr, Since, Till, Room) VALUES (2, DATE '2024-02-23', DATE '2024-02-27', 3); INSERT INTO Booking (Nr, Since, Till, Room) VALUES (1, DATE '2024-03-01', DATE '2024-03-07', 1); COMMIT;
\echo submit
BEGIN; DELETE FROM Booking WHERE Room = 1; INSERT INTO Room (No, Since, Till, Price) VALUES (3, DATE '2024-02-27', DATE '2024-03-02', 2); COMMIT;
\echo submit
BEGIN; INSERT INTO Room (No, Since, Till, Price) VALUES (3, DATE '2024-03-03', DATE '2024-03-05', 8); COMMIT;
\echo submit
BEGIN; SELECT portion('booking', '2024-02-23', '2024-03-02', 'Room = 2', 'Room = 2'); COMMIT;
\echo ask
SELECT * FROM Room ORDER BY No, Since;
\echo ask
SELECT * FROM Booking ORDER BY Nr, Since;
\echo submit
BEGIN; SELECT portion('room', '2024-02-23', '2024-02-24', 'No = 1', NULL); COMMIT;
\echo submit
BEGIN; INSERT INTO Booking (Nr, Since, Till, Room) VALUES (3, DATE '2024-03-03', DATE '2024-03-06', 3); COMMIT;
\echo submit
BEGIN; INSERT INTO Booking (Nr, Since, Till, Room) VALUES (3, DATE '2024-02-28', DATE '2024-03-05', 1); COMMIT;
\echo submit
BEGIN; INSERT INTO Room (No, Since, Till, Price) VALUES (3, DATE '2024-02-23', DATE '2024-03-01', 3); COMMIT;
\echo submit
BEGIN; SELECT portion('booking', '2024-02-21', '2024-02-23', 'Room = 1', 'Room = 2'); COMMIT;
\echo ask
SELECT * FROM Room ORDER BY No, Since;
\echo ask
SELECT * FROM Booking ORDER BY Nr, Since;
\echo submit
BEGIN; INSERT INTO Booking (Nr, Since, Till, Room) VALUES (3, DATE '2024-02-25', DATE '2024-03-01', 2); INSERT INTO Booking (Nr, Since, Till, Room) VALUES (3, DATE '2024-03-06', DATE '2024-03-07', 1); INSERT INTO Room (No, Since, Till, Price) VALUES (1, DATE '2024-02-29', DATE '2024-03-02', 2); COMMIT;
\echo submit
BEGIN; INSERT INTO Booking (Nr, Since, Till, Room) VALUES (2, DATE '2024-03-01', DATE '2024-03-06', 2); DELETE FROM Room WHERE No = 2; COMMIT;
\echo submit
BEGIN; SELECT portion('booking', '2024-03-06', '2024-03-07', 'Nr = 2', NULL); COMMIT;
\echo submit
BEGIN; INSERT INTO Booking (Nr, Since, Till, Room) VALUES (3, DATE '2024-02-27', DATE '2024-02-28', 2); INSERT INTO Booking (Nr, Since, Till, Room) VALUES (2, DATE '2024-02-20', DATE '2024-02-23', 3); COMMIT;
\echo submit
BEGIN; INSERT INTO Room (No, Since, Till, Price) VALUES (3, DATE '2024-02-27', DATE '2024-03-04', 7); COMMIT;
\echo ask
SELECT * FROM Room ORDER BY No, Since;
\echo ask
SELECT * FROM Booking ORDER BY Nr, Since;
\echo submit
BEGIN; INSERT INTO Booking (Nr, Since, Till, Room) VALUES (1, DATE '2024-02-27', DATE '2024-03-03', 3); COMMIT;
\echo submit
BEGIN; INSERT INTO Room (No, Since, Till, Price) VALUES (2, DATE '2024-02-26', DATE '2024-03-03', 6); COMMIT;
\echo submit
BEGIN; SELECT portion('booking', '2024-02-29', '2024-03-04', 'Room = 1', 'Room = 3'); COMMIT;
\echo submit
BEGIN; UPDATE Booking SET Room = 3 WHERE Nr = 2; COMMIT;
\echo submit
BEGIN; SELECT portion('room', '2024-02-28', '2024-03-02', 'No = 2', 'Price = Price + 1'); COMMIT;
\echo ask
SELECT * FROM Room ORDER BY No, Since;
\echo ask
SELECT * FROM Booking ORDER BY Nr, Since;
\echo submit
BEGIN; INSERT INTO Booking (Nr, Since, Till, Room) VALUES (2, DATE '2024-02-28', DATE '2024-03-02', 3); COMMIT;
\echo submit
BEGIN; SELECT portion('room', '2024-02-29', '2024-03-03', 'No = 2', NULL); INSERT INTO Booking (Nr, Since, Till, Room) VALUES (1, DATE '2024-03-01', DATE '2024-03-06', 1); COMMIT;
\echo submit
BEGIN; INSERT INTO Room (No, Since, Till, Price) VALUES (2, DATE '2024-02-22', DATE '2024-02-23', 1); COMMIT;
\echo submit
BEGIN; INSERT INTO Booking (Nr, Since, Till, Room) VALUES (2, DATE '2024-02-20', DATE '2024-02-25', 2); INSERT INTO Booking (Nr, Since, Till, Room) VALUES (1, DATE '2024-02-28', DATE '2024-03-05', 1); COMMIT;
\echo submit
BEGIN; INSERT INTO Booking (Nr, Since, Till, Room) VALUES (2, DATE '2024-02-20', DATE '2024-02-26', 3); COMMIT;
\echo ask
SELECT * FROM Room ORDER BY No, Since;
\echo ask
SELECT * FROM Booking ORDER BY Nr, Since;
\echo submit
BEGIN; SELECT portion('booking', '2024-03-02', '2024-03-04', 'Nr = 1', NULL); INSERT INTO Booking (Nr, Since, Till, Room) VALUES (3, DATE '2024-02-25', DATE '2024-02-27', 1); COMMIT;
\echo submit
BEGIN; SELECT portion('booking', '2024-03-02', '2024-03-07', 'Nr = 1', NULL); COMMIT;
\echo submit
BEGIN; INSERT INTO Room (No, Since, Till, Price) VALUES (1, DATE '2024-02-23', DATE '2024-02-24', 7); INSERT INTO Booking (Nr, Since, Till, Room) VALUES (3, DATE '2024-02-25', DATE '2024-02-26', 1); SELECT portion('booking', '2024-02-21', '2024-02-23', 'Nr = 2', NULL); COMMIT;
\echo submit
BEGIN; SELECT portion('room', '2024-03-01', '2024-03-07', 'No = 3', NULL); COMMIT;
\echo submit
BEGIN; DELETE FROM Room WHERE No = 3; INSERT INTO Booking (Nr, Since, Till, Room) VALUES (1, DATE '2024-03-04', DATE '2024-03-05', 1); COMMIT;
\echo ask
SELECT * FROM Room ORDER BY No, Since;
\echo ask
SELECT * FROM Booking ORDER BY Nr, Since;
\echo submit
BEGIN; INSERT INTO Room (No, Since, Till, Price) VALUES (3, DATE '2024-02-22', DATE '2024-02-27', 7); COMMIT;
\echo submit
BEGIN; DELETE FROM Room WHERE No = 3; INSERT INTO Booking (Nr, Since, Till, Room) VALUES (1, DATE '2024-03-03', DATE '2024-03-05', 3); COMMIT;
\echo submit
BEGIN; SELECT portion('room', '2024-02-24', '2024-02-27', 'No = 2', NULL); INSERT INTO Booking (Nr, Since, Till, Room) VALUES (3, DATE '2024-03-01', DATE '2024-03-03', 3); SELECT portion('booking', '2024-02-22', '2024-02-29', 'Room = 2', 'Room = 3'); COMMIT;
\echo submit
BEGIN; DELETE FROM Room WHERE No = 2; INSERT INTO Room (No, Since, Till, Price) VALUES (1, DATE '2024-02-20', DATE '2024-02-22', 5); COMMIT;
\echo submit
BEGIN; INSERT INTO Room (No, Since, Till, Price) VALUES (2, DATE '2024-03-04', DATE '2024-03-05', 3); INSERT INTO Booking (Nr, Since, Till, Room) VALUES (1, DATE '2024-02-29', DATE '2024-03-05', 2); COMMIT;
\echo ask
SELECT * FROM Room ORDER BY No, Since;
\echo ask
SELECT * FROM Booking ORDER BY Nr, Since;
\echo submit
BEGIN; INSERT INTO Room (No, Since, Till, Price) VALUES (2, DATE '2024-03-04', DATE '2024-03-05', 4); INSERT INTO Booking (Nr, Since, Till, Room) VALUES (2, DATE '2024-03-05', DATE '2024-03-07', 1); COMMIT;
\echo submit
BEGIN; INSERT INTO Booking (Nr, Since, Till, Room) VALUES (1, DATE '2024-03-01', DATE '2024-03-06', 3); COMMIT;
\echo submit
BEGIN; SELECT portion('booking', '2024-02-27', '2024-03-02', 'Room = 3', 'Room = 1'); INSERT INTO Room (No, Since, Till, Price) VALUES (2, DATE '2024-02-21', DATE '2024-02-26', 4); COMMIT;
\echo submit
BEGIN; INSERT INTO Booking (Nr, Since, Till, Room) VALUES (2, DATE '2024-03-01', DATE '2024-03-03', 1); DELETE FROM Room WHERE No = 1; INSERT INTO Booking (Nr, Since, Till, Room) VALUES (1, DATE '2024-02-29', DATE '2024-03-01', 3); COMMIT;
\echo submit
BEGIN; INSERT INTO Room (No, Since, Till, Price) VALUES (2, DATE '2024-02-20', DATE '2024-02-24', 1); SELECT portion('room', '2024-03-04', '2024-03-06', 'No = 3', NULL); SELECT portion('booking', '2024-03-02', '2024-03-05', 'Nr = 3', NULL); COMMIT;
\echo ask
SELECT * FROM Room ORDER BY No, Since;
\echo ask
SELECT * FROM Booking ORDER BY Nr, Since;
\echo submit
BEGIN; INSERT INTO Booking (Nr, Since, Till, Room) VALUES (2, DATE '2024-03-02', DATE '2024-03-05', 1); INSERT INTO Room (No, Since, Till, Price) VALUES (2, DATE '2024-03-05', DATE '2024-03-07', 3); COMMIT;
\echo submit
BEGIN; INSERT INTO Booking (Nr, Since, Till, Room) VALUES (3, DATE '2024-02-28', DATE '2024-03-01', 3); INSERT INTO Booking (Nr, Since, Till, Room) VALUES (3, DATE '2024-03-05', DATE '2024-03-07', 2); COMMIT;
\echo submit
BEGIN; INSERT INTO Room (No, Since, Till, Price) VALUES (2, DATE '2024-02-29', DATE '2024-03-05', 5); COMMIT;
\echo submit
BEGIN; SELECT portion('booking', '2024-03-05', '2024-03-06', 'Room = 3', 'Room = 1'); UPDATE Booking SET Room = 2 WHERE Nr = 3; COMMIT;
\echo submit
BEGIN; INSERT INTO Booking (Nr, Since, Till, Room) VALUES (1, DATE '2024-02-27', DATE '2024-03-04', 2); SELECT portion('booking', '2024-02-28', '2024-02-29', 'Nr = 2', NULL); INSERT INTO Booking (Nr, Since, Till, Room) VALUES (2, DATE '2024-03-01', DATE '2024-03-02', 3); COMMIT;
\echo ask
SELECT * FROM Room ORDER BY No, Since;
\echo ask
SELECT * FROM Booking ORDER BY Nr, Since;
