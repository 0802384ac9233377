-- What PostgreSQL is given before each list: the tables of the scripts, without system time, and FOR PORTION OF as a function.
-- A period is two columns with a day between them, and no two rows of a key have a day in common.
SET client_min_messages = error;
CREATE EXTENSION IF NOT EXISTS btree_gist;
DROP TABLE IF EXISTS Stay, Loan, Booking, Room, Kept CASCADE;
CREATE TABLE Stay (Room BIGINT NOT NULL, Since DATE NOT NULL, Till DATE NOT NULL, Guest VARCHAR(8) NOT NULL, Paid BIGINT NOT NULL,
  CHECK (Since < Till), EXCLUDE USING gist (Room WITH =, daterange(Since, Till) WITH &&));
-- What Stay was after a request, which is the one of this number.
CREATE TABLE Kept AS SELECT 0 AS At, * FROM Stay;
CREATE TABLE Loan (Holder VARCHAR(8) NOT NULL, Item BIGINT NOT NULL, Since DATE NOT NULL, Till DATE NOT NULL, Due DATE NOT NULL,
  CHECK (Since < Till), EXCLUDE USING gist (Holder WITH =, Item WITH =, daterange(Since, Till) WITH &&));
CREATE TABLE Room (No BIGINT NOT NULL, Since DATE NOT NULL, Till DATE NOT NULL, Price BIGINT NOT NULL,
  CHECK (Since < Till), EXCLUDE USING gist (No WITH =, daterange(Since, Till) WITH &&));
CREATE TABLE Booking (Nr BIGINT NOT NULL, Since DATE NOT NULL, Till DATE NOT NULL, Room BIGINT NOT NULL,
  CHECK (Since < Till), EXCLUDE USING gist (Nr WITH =, daterange(Since, Till) WITH &&));

-- Each day of a booking is one of its room: the days of all rows of the room, as one set, have those of the booking.
CREATE OR REPLACE FUNCTION look_for_rooms() RETURNS trigger LANGUAGE plpgsql AS $$
BEGIN
  IF EXISTS (SELECT FROM Booking b WHERE NOT coalesce(
      (SELECT range_agg(daterange(r.Since, r.Till)) FROM Room r WHERE r.No = b.Room) @> daterange(b.Since, b.Till), false)) THEN
    RAISE foreign_key_violation;
  END IF;
  RETURN NULL;
END $$;
CREATE CONSTRAINT TRIGGER of_bookings AFTER INSERT OR UPDATE OR DELETE ON Booking DEFERRABLE INITIALLY DEFERRED
  FOR EACH ROW EXECUTE FUNCTION look_for_rooms();
CREATE CONSTRAINT TRIGGER of_rooms AFTER INSERT OR UPDATE OR DELETE ON Room DEFERRABLE INITIALLY DEFERRED
  FOR EACH ROW EXECUTE FUNCTION look_for_rooms();

-- The rows that pass and have a day from `first` to the one before `last` go. What they had before and after these days comes back,
-- and what they had of them with what is assigned, unless that is NULL.
CREATE OR REPLACE FUNCTION portion(named text, first date, last date, passes text, assigned text) RETURNS void LANGUAGE plpgsql AS $$
BEGIN
  EXECUTE format('CREATE TEMP TABLE met AS SELECT * FROM %I WHERE (%s) AND daterange(Since, Till) && daterange(%L, %L)',
    named, passes, first, last);
  EXECUTE format('DELETE FROM %I t USING met WHERE ROW(t.*) = ROW(met.*)', named);
  EXECUTE 'CREATE TEMP TABLE beside AS SELECT * FROM met';
  EXECUTE format('DELETE FROM beside WHERE Since >= %L', first);
  EXECUTE format('UPDATE beside SET Till = %L', first);
  EXECUTE format('INSERT INTO %I SELECT * FROM beside', named);
  EXECUTE 'DROP TABLE beside';
  EXECUTE 'CREATE TEMP TABLE beside AS SELECT * FROM met';
  EXECUTE format('DELETE FROM beside WHERE Till <= %L', last);
  EXECUTE format('UPDATE beside SET Since = %L', last);
  EXECUTE format('INSERT INTO %I SELECT * FROM beside', named);
  EXECUTE 'DROP TABLE beside';
  IF assigned IS NOT NULL THEN
    EXECUTE format('UPDATE met SET Since = greatest(Since, %L), Till = least(Till, %L)', first, last);
    EXECUTE format('UPDATE met SET %s', assigned);
    EXECUTE format('INSERT INTO %I SELECT * FROM met', named);
  END IF;
  EXECUTE 'DROP TABLE met';
END $$;
