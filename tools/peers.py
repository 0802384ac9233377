"""bitable and its peers, as tools/side_by_side has them: each keeps one table of stays, takes requests and answers questions about the past.

A request is ("insert", room, came, went, guest), ("update", room or None for all, guest), ("portion", room, came, went, guest) or
("remove", room, came, went), and a transaction of its own. A question is (room or None for all, the instant that it is AS OF or None for
now). An answer is the list of its rows (room, came, went, guest), in order. A table has `run`, `instants`, `time_of` and `answers`.
"""
import contextlib
import os
import pwd
import re
import shutil
import signal
import socket
import sqlite3
import struct
import subprocess
import sys
import tempfile
import time

BITABLE = """CREATE TABLE Stay (Room INTEGER, Came DATE, Went DATE, Guest VARCHAR(30),
 SysStart TIMESTAMP(6) GENERATED ALWAYS AS ROW START,
 SysEnd TIMESTAMP(6) GENERATED ALWAYS AS ROW END,
 PERIOD FOR Nights (Came, Went),
 PERIOD FOR SYSTEM_TIME (SysStart, SysEnd),
 PRIMARY KEY (Room, Nights WITHOUT OVERLAPS)) WITH SYSTEM VERSIONING;
"""
# Current rows, and every version of a row; the one is kept from overlaps, and the other written, by triggers.
SQLITE = """CREATE TABLE Instant (T INTEGER NOT NULL);
INSERT INTO Instant VALUES (0);
CREATE TABLE Stay (Room INTEGER NOT NULL, Came TEXT NOT NULL, Went TEXT NOT NULL CHECK (Came < Went), Guest TEXT NOT NULL,
 PRIMARY KEY (Room, Came)) WITHOUT ROWID;
CREATE TABLE Versions (Room INTEGER NOT NULL, Came TEXT NOT NULL, Went TEXT NOT NULL, Guest TEXT NOT NULL, SysStart INTEGER NOT NULL,
 SysEnd INTEGER NOT NULL, PRIMARY KEY (Room, SysEnd, Came)) WITHOUT ROWID;
CREATE TRIGGER apart BEFORE INSERT ON Stay
 WHEN (SELECT Went FROM Stay WHERE Room = NEW.Room AND Came < NEW.Went ORDER BY Came DESC LIMIT 1) > NEW.Came
 BEGIN SELECT RAISE(ABORT, 'overlap'); END;
CREATE TRIGGER came AFTER INSERT ON Stay
 BEGIN INSERT INTO Versions SELECT NEW.Room, NEW.Came, NEW.Went, NEW.Guest, T, 9223372036854775807 FROM Instant; END;
CREATE TRIGGER went AFTER DELETE ON Stay
 BEGIN UPDATE Versions SET SysEnd = (SELECT T FROM Instant) WHERE Room = OLD.Room AND SysEnd = 9223372036854775807 AND Came = OLD.Came; END;
CREATE TRIGGER changed AFTER UPDATE ON Stay
 BEGIN
  UPDATE Versions SET SysEnd = (SELECT T FROM Instant) WHERE Room = OLD.Room AND SysEnd = 9223372036854775807 AND Came = OLD.Came;
  INSERT INTO Versions SELECT NEW.Room, NEW.Came, NEW.Went, NEW.Guest, T, 9223372036854775807 FROM Instant;
 END;
"""
MARIADB = """DROP DATABASE IF EXISTS beside;
CREATE DATABASE beside;
USE beside;
CREATE TABLE Stay (Room INTEGER NOT NULL, Came DATE NOT NULL, Went DATE NOT NULL, Guest VARCHAR(30) NOT NULL,
 SysStart TIMESTAMP(6) GENERATED ALWAYS AS ROW START, SysEnd TIMESTAMP(6) GENERATED ALWAYS AS ROW END,
 PERIOD FOR Nights (Came, Went), PERIOD FOR SYSTEM_TIME (SysStart, SysEnd),
 PRIMARY KEY (Room, Nights WITHOUT OVERLAPS)) WITH SYSTEM VERSIONING;
"""
POSTGRESQL = """DROP SCHEMA public CASCADE;
CREATE SCHEMA public;
CREATE EXTENSION btree_gist;
CREATE TABLE Stay (Room integer NOT NULL, Came date NOT NULL, Went date NOT NULL CHECK (Came < Went), Guest varchar(30) NOT NULL,
 EXCLUDE USING gist (Room WITH =, daterange(Came, Went) WITH &&));
CREATE TABLE Versions (Room integer NOT NULL, Came date NOT NULL, Went date NOT NULL, Guest varchar(30) NOT NULL,
 SysStart timestamptz NOT NULL, SysEnd timestamptz NOT NULL);
CREATE INDEX ON Versions (Room, SysEnd, Came);
CREATE FUNCTION keep_version() RETURNS trigger LANGUAGE plpgsql AS $$ BEGIN
 IF TG_OP <> 'INSERT' THEN
  UPDATE Versions SET SysEnd = now() WHERE Room = OLD.Room AND SysEnd = 'infinity' AND Came = OLD.Came;
 END IF;
 IF TG_OP <> 'DELETE' THEN
  INSERT INTO Versions VALUES (NEW.Room, NEW.Came, NEW.Went, NEW.Guest, now(), 'infinity');
 END IF;
 RETURN NULL;
END $$;
CREATE TRIGGER kept AFTER INSERT OR UPDATE OR DELETE ON Stay FOR EACH ROW EXECUTE FUNCTION keep_version();
CREATE PROCEDURE portion(k integer, a date, b date, g text) LANGUAGE plpgsql AS $$ DECLARE met record; BEGIN
 FOR met IN DELETE FROM Stay WHERE Room = k AND daterange(Came, Went) && daterange(a, b) RETURNING * LOOP
  IF met.Came < a THEN INSERT INTO Stay VALUES (k, met.Came, a, met.Guest); END IF;
  IF g IS NOT NULL THEN INSERT INTO Stay VALUES (k, greatest(met.Came, a), least(met.Went, b), g); END IF;
  IF met.Went > b THEN INSERT INTO Stay VALUES (k, b, met.Went, met.Guest); END IF;
 END LOOP;
END $$;
"""
ELSEWHERE = "/usr/sbin", "/usr/local/sbin", *(f"/usr/lib/postgresql/{version}/bin" for version in range(18, 14, -1))
CHUNK = 100


def fail(text):
    sys.exit(f"side_by_side: {text}")


def command(name):
    return shutil.which(name, path=os.pathsep.join([os.environ.get("PATH", ""), *ELSEWHERE]))


def said_by(*words):
    return subprocess.run(words, stdout=subprocess.PIPE, text=True, check=True).stdout


def until_ended(things, take, limit):
    """Has each taken, till they are through or the seconds are over: how many were, and the seconds."""
    begun = time.monotonic()
    for done, thing in enumerate(things, 1):
        take(thing)
        if limit and done % CHUNK == 0 and time.monotonic() - begun > limit:
            return done, time.monotonic() - begun
    return len(things), time.monotonic() - begun


class Peer:
    """What makes tables: in memory ("memory"), by `live` or what stands beside it ("live"), on the disk and synced ("disk")."""

    # What it is called, the commands that it needs with the package of each, and the rows of the table where it has something.
    name, needs, rows = "", {}, ()
    # How many of a row it can hold, where that is not all.
    most = {}

    def __init__(self, places, program):
        self.places, self.program, self.held = places, program, contextlib.ExitStack()

    def lacks(self):
        return sorted({package for name, package in self.needs.items() if not command(name)})

    def close(self):
        self.held.close()

    # What a peer has no more use for once a table was measured.
    rest = close

    def folder(self, way):
        """A folder of its own, on the disk or in memory, which is gone at the end."""
        made = tempfile.mkdtemp(prefix=f"beside-{self.name}-", dir=self.places["disk" if way == "disk" else "memory"])
        self.held.callback(shutil.rmtree, made, ignore_errors=True)
        return made


# bitable


def bitable_text(request):
    kind, room, *rest = request
    if kind == "insert":
        return "INSERT INTO Stay (Room, Came, Went, Guest) VALUES ({}, DATE '{}', DATE '{}', '{}');".format(room, *rest)
    if kind == "update":
        return f"UPDATE Stay SET Guest = '{rest[0]}'" + (";" if room is None else f" WHERE Room = {room};")
    if kind == "portion":
        return "UPDATE Stay FOR PORTION OF Nights FROM DATE '{}' TO DATE '{}' SET Guest = '{}' WHERE Room = {};".format(*rest, room)
    return "DELETE FROM Stay FOR PORTION OF Nights FROM DATE '{}' TO DATE '{}' WHERE Room = {};".format(*rest, room)


def bitable_question(room, instant):
    when = "" if instant is None else f" FOR SYSTEM_TIME AS OF TIMESTAMP '{instant}'"
    return f"SELECT * FROM Stay{when}" + (";" if room is None else f" WHERE Room = {room};")


def bitable_answers(lines):
    """The answers among what it printed."""
    found = []
    for line in lines:
        if line.startswith("columns "):
            found.append([])
        elif line.startswith("row "):
            room, came, went, guest = line[4:].split(",")[:4]
            found[-1].append((int(room), came, went, guest.strip("'")))
        elif " refused 33" in line:
            fail(f"bitable does not answer: {line}")
    return found


class Script:
    """A table that a script makes, which is played anew for each thing that is looked at."""

    words, begin, between = ("sim", "--quiet"), "timeout 1\nsettle\n", "settle\n"

    def __init__(self, program, folder):
        self.program, self.path, self.lines, self.number = program, os.path.join(folder, "script"), [], 0

    def write(self, more=()):
        with open(self.path, "w", encoding="ascii") as file:
            file.write(f"members 3\nschema\n{BITABLE}end\nclock all 0\n{self.begin}{''.join(self.lines)}{''.join(more)}")

    def play(self, more=()):
        self.write(more)
        return said_by(self.program, *self.words, self.path).splitlines()

    def seconds(self, more=()):
        self.write(more)
        begun = time.monotonic()
        subprocess.run([self.program, *self.words, self.path], stdout=subprocess.DEVNULL, check=True)
        return time.monotonic() - begun

    def add(self, requests):
        for request in requests:
            self.number += 1
            self.lines.append(f"submit 1 7 {self.number} {bitable_text(request)}\n{self.between}")

    def run(self, requests, limit=None, timed=True):
        before = self.seconds() if timed else 0
        self.add(requests)
        return len(requests), self.seconds() - before if timed else 0

    def instants(self):
        """In the order of the entries; of three nodes that tell the same one counts."""
        told = [re.search(r"request 7 (\d+) accepted (.*)", line) for line in self.play()]
        return sorted({int(it[1]): it[2] for it in told if it}.values())

    def asked(self, questions):
        return [f"ask 1 {bitable_question(*it)}\n" for it in questions]

    def time_of(self, questions, limit=None):
        before = self.seconds()
        return len(questions), self.seconds(self.asked(questions)) - before

    def answers(self, questions):
        return bitable_answers(self.play(self.asked(questions)))


class Live(Script):
    """Time is that from the first outcome to the last, so that neither an election nor the audit at the end counts."""

    words, begin, between = ("live", "--nodes", "3", "--seed", "1", "--loss", "0"), "", ""

    def run(self, requests, limit=None, timed=True):
        self.add(requests)
        if not timed:
            return len(requests), 0
        self.write()
        times = []
        with subprocess.Popen([self.program, *self.words, self.path], stdout=subprocess.PIPE, text=True) as process:
            for line in process.stdout:
                if " accepted " in line:
                    times.append(time.monotonic())
        if process.returncode or line != "audit: yes\n":
            fail(f"bitable live ended with status {process.returncode} and {line}")
        return len(times), (times[-1] - times[0]) * len(times) / (len(times) - 1)

    def asked(self, questions):
        return ["settle\n", *super().asked(questions)]


class Store:
    """A store in a folder. Each request is sent once the one before is told, so that each has a sync of its own. Time is that from the first
    outcome to the last."""

    def __init__(self, program, folder):
        self.program, self.folder, self.text = program, folder, os.path.join(folder, "lines")
        with open(self.text, "w", encoding="ascii") as file:
            file.write(BITABLE)
        self.store = os.path.join(folder, "store")
        said_by(program, "new", self.store, "--nodes", "3", "--schema", self.text)
        self.told = []

    def hand_in(self, requests):
        """The seconds that these take."""
        times = []
        # (status 1 is of a request that was refused)
        with subprocess.Popen([self.program, "open", self.store], stdin=subprocess.PIPE, stdout=subprocess.PIPE, text=True) as process:
            for request in requests:
                process.stdin.write(bitable_text(request) + "\n")
                process.stdin.flush()
                self.told.append(process.stdout.readline().rstrip("\n"))
                times.append(time.monotonic())
        return (times[-1] - times[0]) * len(times) / max(len(times) - 1, 1)

    def run(self, requests, limit=None, timed=True):
        """A part first, by which it is seen how many of the others there is time for."""
        done = took = 0
        for some in requests[:200], requests[200:]:
            if limit and done:
                some = some[:max(0, int((limit - took) * done / took))]
            if some:
                done, took = done + len(some), took + max(self.hand_in(some), 1e-9)
        return done, took

    def instants(self):
        return [line.split(" accepted ")[1] for line in self.told if " accepted " in line]

    def answers(self, questions):
        with open(self.text, "w", encoding="ascii") as file:
            file.writelines(f"{bitable_question(*it)}\n" for it in questions)
        return bitable_answers(said_by(self.program, "open", self.store, self.text).splitlines())


class Bitable(Peer):
    name, rows = "bitable", ("insert", "portion", "keys", "one", "live", "disk")
    # A table has 20,000 rows, a log 100,000 entries, a life of `live` 200,000 steps.
    most = {"insert": 20_000, "portion": 99_000, "one": 99_000, "live": 10_000, "disk": 20_000}

    def version(self):
        return said_by(self.program, "--version").strip()

    def table(self, way):
        return {"memory": Script, "live": Live, "disk": Store}[way](self.program, self.folder(way))


# SQLite


class SqliteTable:
    def __init__(self, path):
        self.base, self.stamps, self.now = sqlite3.connect(path, isolation_level=None), [], 0
        self.base.execute("PRAGMA journal_mode = WAL")
        self.base.execute("PRAGMA synchronous = FULL")
        self.base.executescript(SQLITE)

    def change(self, kind, room, *rest):
        do = self.base.execute
        if kind == "insert":
            do("INSERT INTO Stay VALUES (?, ?, ?, ?)", (room, *rest))
        elif kind == "update" and room is None:
            do("UPDATE Stay SET Guest = ?", rest)
        elif kind == "update":
            do("UPDATE Stay SET Guest = ? WHERE Room = ?", (*rest, room))
        else:
            self.change_portion(room, *rest)

    def change_portion(self, room, begin, end, guest=None):
        """The rows that have a day of the portion go; their days outside of it come back as they were, those in it anew."""
        where = ("WHERE Room = ? AND Came < ? AND Came >= "
                 "ifnull((SELECT Came FROM Stay WHERE Room = ? AND Came <= ? ORDER BY Came DESC LIMIT 1), ?) AND Went > ?")
        values = room, end, room, begin, begin, begin
        met = self.base.execute(f"SELECT Came, Went, Guest FROM Stay {where}", values).fetchall()
        self.base.execute(f"DELETE FROM Stay {where}", values)
        parts = []
        for came, went, before in met:
            parts += [(room, came, begin, before)] * (came < begin)
            parts += [(room, max(came, begin), min(went, end), guest)] * (guest is not None)
            parts += [(room, end, went, before)] * (went > end)
        self.base.executemany("INSERT INTO Stay VALUES (?, ?, ?, ?)", parts)

    def take(self, request):
        self.now += 1
        self.base.execute("BEGIN IMMEDIATE")
        try:
            self.base.execute("UPDATE Instant SET T = ?", (self.now,))
            self.change(*request)
            self.base.execute("COMMIT")
            self.stamps.append(self.now)
        except sqlite3.IntegrityError:
            self.base.execute("ROLLBACK")

    def run(self, requests, limit=None, timed=True):
        return until_ended(requests, self.take, limit)

    def instants(self):
        return self.stamps

    def answer(self, question):
        room, instant = question
        table, where, values = "Stay", [], []
        if room is not None:
            where, values = ["Room = ?"], [room]
        if instant is not None:
            table, where, values = "Versions", where + ["SysEnd > ?", "SysStart <= ?"], values + [instant, instant]
        text = f"SELECT Room, Came, Went, Guest FROM {table}" + (f" WHERE {' AND '.join(where)}" if where else "")
        return self.base.execute(text, values).fetchall()

    def time_of(self, questions, limit=None):
        return until_ended(questions, self.answer, limit)

    def answers(self, questions):
        return [sorted(self.answer(it)) for it in questions]


class Sqlite(Peer):
    name, rows = "SQLite", ("insert", "portion", "keys", "one", "disk")

    def version(self):
        return f"SQLite {sqlite3.sqlite_version} by Python's sqlite3"

    def table(self, way):
        return SqliteTable(os.path.join(self.folder(way), "base.db") if way == "disk" else ":memory:")


class LogsTable:
    """Three logs, with a commit for each request in each; they answer nothing."""

    def __init__(self, folder):
        self.logs, self.number = [], 0
        for number in range(3):
            log = sqlite3.connect(os.path.join(folder, f"log{number}.db"), isolation_level=None)
            log.execute("PRAGMA journal_mode = WAL")
            log.execute("PRAGMA synchronous = FULL")
            log.execute("CREATE TABLE log (idx INTEGER PRIMARY KEY, term INTEGER, stamp INTEGER, client INTEGER, number INTEGER, body TEXT)")
            self.logs.append(log)

    def take(self, request):
        self.number += 1
        for log in self.logs:
            log.execute("INSERT INTO log VALUES (?, 1, ?, 7, ?, ?)", (self.number, self.number, self.number, bitable_text(request)))

    def run(self, requests, limit=None, timed=True):
        return until_ended(requests, self.take, limit)


class Logs(Peer):
    name, rows = "three logs", ("disk",)

    def version(self):
        return "three logs of SQLite, WAL, synchronous FULL"

    def table(self, way):
        return LogsTable(self.folder(way))


# Servers that take texts


class Client:
    """A server's own client, which reads texts from a pipe and waits for what comes of each."""

    def __init__(self, words):
        self.process = subprocess.Popen(words, stdin=subprocess.PIPE, stdout=subprocess.PIPE, stderr=subprocess.DEVNULL, text=True)
        self.marks = 0

    def say(self, text):
        """What is printed of it."""
        self.marks += 1
        mark = f"told {self.marks}\n"
        self.process.stdin.write(f"{text}SELECT '{mark.strip()}';\n")
        self.process.stdin.flush()
        lines = []
        for line in self.process.stdout:
            if line == mark:
                return lines
            lines.append(line.rstrip("\n"))
        fail(f"{self.process.args[0]} ended")

    def time(self, texts, limit):
        """Says all, or as many as it bears: how many, the seconds, and how many lines came."""
        begun, done, lines = time.monotonic(), 0, 0
        while done < len(texts) and not (limit and done and time.monotonic() - begun > limit):
            some = texts[done:done + CHUNK]
            lines += len(self.say("".join(some)))
            done += len(some)
        return done, time.monotonic() - begun, lines

    def close(self):
        self.process.stdin.close()
        self.process.wait()


class ServedTable:
    """A table of a server. Its columns are printed with `between` between them."""

    setup, between, instants_text = "", "\t", ""

    def __init__(self, client):
        self.client = client
        client.say(self.setup)

    def run(self, requests, limit=None, timed=True):
        return self.client.time([self.text(*it) for it in requests], limit)[:2]

    def instants(self):
        return self.client.say(self.instants_text)

    def time_of(self, questions, limit=None):
        done, seconds, lines = self.client.time([self.question(*it) for it in questions], limit)
        if lines != done:
            fail(f"{self.client.process.args[0]} gave {lines} rows to {done} questions for one row each")
        return done, seconds

    def answers(self, questions):
        found = []
        for question in questions:
            rows = [line.split(self.between) for line in self.client.say(self.question(*question))]
            found.append(sorted((int(room), came, went, guest) for room, came, went, guest in rows))
        return found


class MariadbTable(ServedTable):
    setup = MARIADB
    instants_text = ("SELECT SysStart FROM Stay FOR SYSTEM_TIME ALL UNION SELECT SysEnd FROM Stay FOR SYSTEM_TIME ALL "
                     "WHERE SysEnd < '2038-01-01' ORDER BY 1;\n")

    def text(self, *request):
        return bitable_text(request) + "\n"

    def question(self, room, instant):
        when = "" if instant is None else f" FOR SYSTEM_TIME AS OF TIMESTAMP '{instant}'"
        return f"SELECT Room, Came, Went, Guest FROM Stay{when}" + (";\n" if room is None else f" WHERE Room = {room};\n")


class PostgresqlTable(ServedTable):
    setup, between = POSTGRESQL, "|"
    instants_text = "SELECT SysStart FROM Versions UNION SELECT SysEnd FROM Versions WHERE SysEnd < 'infinity' ORDER BY 1;\n"

    def text(self, kind, room, *rest):
        if kind == "portion":
            return "CALL portion({}, DATE '{}', DATE '{}', '{}');\n".format(room, *rest)
        if kind == "remove":
            return "CALL portion({}, DATE '{}', DATE '{}', NULL);\n".format(room, *rest)
        return bitable_text((kind, room, *rest)) + "\n"

    def question(self, room, instant):
        where = [f"Room = {room}"] if room is not None else []
        where += [f"SysEnd > '{instant}'", f"SysStart <= '{instant}'"] if instant is not None else []
        table = "Stay" if instant is None else "Versions"
        return f"SELECT Room, Came, Went, Guest FROM {table}" + (f" WHERE {' AND '.join(where)};\n" if where else ";\n")


class Server(Peer):
    """A server is started once for tables in memory and once for tables on the disk, and ended at the end."""

    rows = ("insert", "portion", "keys", "one", "disk")
    kind, ending = ServedTable, signal.SIGTERM

    def rest(self):
        """It goes on."""

    def __init__(self, places, program):
        super().__init__(places, program)
        self.clients = {}

    def table(self, way):
        if way not in self.clients:
            self.clients[way] = Client(self.start(self.folder(way), way == "disk"))
            self.held.callback(self.clients[way].close)
        return self.kind(self.clients[way])

    def serve(self, words, folder, ready, **more):
        """Starts it, and waits till it is ready."""
        with open(os.path.join(folder, "log"), "w", encoding="utf-8") as log:
            process = subprocess.Popen(words, stdout=log, stderr=log, stdin=subprocess.DEVNULL, **more)
        self.held.callback(process.wait)
        self.held.callback(process.send_signal, self.ending)
        for _ in range(600):
            if process.poll() is not None:
                break
            if ready():
                return
            time.sleep(0.1)
        with open(os.path.join(folder, "log"), encoding="utf-8", errors="replace") as log:
            fail(f"{self.name} could not be started: {log.read()[-500:]}")


def answers_to(words):
    return lambda: subprocess.run(words, stdout=subprocess.DEVNULL, stderr=subprocess.DEVNULL, stdin=subprocess.DEVNULL).returncode == 0


class Mariadb(Server):
    name, kind = "MariaDB", MariadbTable
    needs = {"mariadbd": "mariadb-server", "mariadb": "mariadb-client", "mariadb-install-db": "mariadb-server"}

    def lacks(self):
        lacking = super().lacks()
        older = not lacking and [int(it) for it in self.version().split()[1].split(".")[:2]] < [10, 11]
        return ["mariadb-server (10.11 or later)"] if older else lacking

    def version(self):
        return "MariaDB " + re.search(r"Ver ([\d.]+)", said_by(command("mariadbd"), "--version"))[1]

    def start(self, folder, durable):
        user = ["--user=root"] if os.geteuid() == 0 else []
        data, at = os.path.join(folder, "data"), os.path.join(folder, "socket")
        made = [command("mariadb-install-db"), "--no-defaults", f"--datadir={data}", "--auth-root-authentication-method=normal", "--skip-test-db"]
        subprocess.run([*made, *user], stdout=subprocess.DEVNULL, stderr=subprocess.DEVNULL, check=True)
        client = [command("mariadb"), "--no-defaults", f"--socket={at}", "-u", "root" if user else pwd.getpwuid(os.geteuid()).pw_name]
        self.serve([command("mariadbd"), "--no-defaults", f"--datadir={data}", f"--socket={at}", "--skip-networking", "--default-time-zone=+00:00",
                    f"--pid-file={at}.pid", f"--innodb-flush-log-at-trx-commit={int(durable)}", *user], folder, answers_to([*client, "-e", "SELECT 1"]))
        return [*client, "-N", "-B", "--unbuffered", "--force"]


class Postgresql(Server):
    # (at SIGTERM it waits for its clients)
    name, kind, ending = "PostgreSQL", PostgresqlTable, signal.SIGINT
    needs = {"postgres": "postgresql-15", "initdb": "postgresql-15", "psql": "postgresql-client-15"}

    def version(self):
        return "PostgreSQL " + re.search(r"[\d.]+", said_by(command("postgres"), "--version"))[0]

    def start(self, folder, durable):
        more = {"cwd": folder}
        if os.geteuid() == 0:
            # It does not run as root.
            more["user"] = next((it for it in ("postgres", "nobody") if it in {user.pw_name for user in pwd.getpwall()}), None)
            shutil.chown(folder, more["user"])
        data = os.path.join(folder, "data")
        made = [command("initdb"), "-D", data, "-U", "beside", "-A", "trust", "-N", "-E", "UTF8", "--locale=C"]
        subprocess.run(made, stdout=subprocess.DEVNULL, check=True, **more)
        client = [command("psql"), "-h", folder, "-U", "beside", "-d", "postgres", "-X", "-q", "-A", "-t"]
        said = ["listen_addresses=", "timezone=UTC"] + ([] if durable else ["fsync=off", "synchronous_commit=off", "full_page_writes=off"])
        self.serve([command("postgres"), "-D", data, "-k", folder, *(word for it in said for word in ("-c", it))], folder,
                   answers_to([*client, "-c", "SELECT 1"]), **more)
        return client


# etcd


def varint(number):
    out = b""
    while number > 127:
        out, number = out + bytes([number & 127 | 128]), number >> 7
    return out + bytes([number])


def field(number, value):
    """A field of a message of protocol buffers: a number, or bytes."""
    if isinstance(value, int):
        return varint(number << 3) + varint(value)
    return varint(number << 3 | 2) + varint(len(value)) + value


def fields(text):
    """The fields of a message, each by its number."""
    at = 0

    def number():
        nonlocal at
        value = shift = 0
        while True:
            at += 1
            value |= (text[at - 1] & 127) << shift
            shift += 7
            if text[at - 1] < 128:
                return value

    while at < len(text):
        key = number()
        value = number()
        if key & 7 == 2:
            value, at = text[at:at + value], at + value
        yield key >> 3, value


class Calls:
    """Calls of gRPC, one after the other, each as two frames of HTTP/2: etcd's own way, without its gateway for JSON."""

    HEAD, DATA, SETTINGS, PING, WINDOW = 1, 0, 4, 6, 8

    def __init__(self, port):
        self.socket = socket.create_connection(("127.0.0.1", port))
        self.socket.setsockopt(socket.IPPROTO_TCP, socket.TCP_NODELAY, 1)
        self.file, self.stream, self.taken = self.socket.makefile("rb"), -1, 0
        self.socket.sendall(b"PRI * HTTP/2.0\r\n\r\nSM\r\n\r\n" + self.frame(self.SETTINGS, 0, 0, b""))

    def frame(self, kind, flags, stream, body):
        return struct.pack(">I", len(body))[1:] + bytes([kind, flags]) + struct.pack(">I", stream) + body

    def head(self, path):
        texts = "127.0.0.1", "content-type", "application/grpc", "te", "trailers"
        host, *others = (bytes([len(it)]) + it.encode() for it in texts)
        path = bytes([len(path)]) + path.encode()
        return b"\x83\x86\x04" + path + b"\x01" + host + b"\0" + others[0] + others[1] + b"\0" + others[2] + others[3]

    def call(self, path, message):
        """What comes of a call; what was read before is given back to the window."""
        self.stream += 2
        back = self.frame(self.WINDOW, 0, 0, struct.pack(">I", self.taken)) if self.taken else b""
        body = b"\0" + struct.pack(">I", len(message)) + message
        self.socket.sendall(back + self.frame(self.HEAD, 4, self.stream, self.head(path)) + self.frame(self.DATA, 1, self.stream, body))
        self.taken, got = 0, b""
        while True:
            head = self.file.read(9)
            if len(head) < 9:
                raise ConnectionError("etcd closed the connection")
            kind, flags, stream = head[3], head[4], int.from_bytes(head[5:], "big")
            body = self.file.read(int.from_bytes(head[:3], "big"))
            if kind == self.DATA:
                got, self.taken = got + body, self.taken + len(body)
            elif kind in (self.SETTINGS, self.PING) and not flags & 1:
                self.socket.sendall(self.frame(kind, 1, 0, body if kind == self.PING else b""))
            if kind in (self.HEAD, self.DATA) and flags & 1 and stream == self.stream:
                if not got:
                    raise ConnectionError(f"etcd refused {path}: {body!r}")
                return got[5:]


class EtcdTable:
    """A key for each room, with the rest as its value. It knows no periods, so it takes no portions."""

    def __init__(self, calls):
        self.calls, self.revisions, self.kept = calls, [], {}

    def put(self, room, value):
        self.kept[room] = value
        return field(1, b"%d" % room) + field(2, " ".join(value).encode())

    def take(self, request):
        kind, room, *rest = request
        if kind == "insert":
            said = self.calls.call("/etcdserverpb.KV/Put", self.put(room, rest))
        elif kind == "update":
            puts = [self.put(it, [*self.kept[it][:2], rest[0]]) for it in (list(self.kept) if room is None else [room])]
            said = self.calls.call("/etcdserverpb.KV/Txn", b"".join(field(2, field(2, it)) for it in puts))
        else:
            del self.kept[room]
            said = self.calls.call("/etcdserverpb.KV/DeleteRange", field(1, b"%d" % room))
        self.revisions.append(dict(fields(dict(fields(said))[1]))[3])

    def run(self, requests, limit=None, timed=True):
        return until_ended(requests, self.take, limit)

    def instants(self):
        return self.revisions

    def answer(self, question):
        room, revision = question
        keys = field(1, b"\0") + field(2, b"\0") if room is None else field(1, b"%d" % room)
        return self.calls.call("/etcdserverpb.KV/Range", keys + (field(4, revision) if revision else b"") + field(7, 1))

    def time_of(self, questions, limit=None):
        return until_ended(questions, self.answer, limit)

    def answers(self, questions):
        found = []
        for question in questions:
            pairs = [dict(fields(value)) for number, value in fields(self.answer(question)) if number == 2]
            found.append(sorted((int(it[1]), *it[5].decode().split(" ", 2)) for it in pairs))
        return found


class Etcd(Server):
    """One node or three, made anew for each table."""

    needs = {"etcd": "etcd-server"}
    rows = ("keys", "one", "live", "disk")
    nodes = 1
    rest = Peer.close

    def version(self):
        return f"etcd {re.search(r'[0-9.]+', said_by(command('etcd'), '--version'))[0]}, {self.nodes} node{'s' * (self.nodes > 1)}"

    def table(self, way):
        self.close()
        with contextlib.ExitStack() as held:
            sockets = [held.enter_context(socket.create_server(("127.0.0.1", 0))) for _ in range(2 * self.nodes)]
            ports = [it.getsockname()[1] for it in sockets]
        asked, between = ports[:self.nodes], ports[self.nodes:]
        cluster = ",".join(f"n{number}=http://127.0.0.1:{port}" for number, port in enumerate(between))
        for number in range(self.nodes):
            folder, at, of = self.folder(way), f"http://127.0.0.1:{asked[number]}", f"http://127.0.0.1:{between[number]}"
            words = ["--name", f"n{number}", "--data-dir", os.path.join(folder, "data"), "--listen-client-urls", at, "--advertise-client-urls", at,
                     "--listen-peer-urls", of, "--initial-advertise-peer-urls", of, "--initial-cluster", cluster, "--max-txn-ops", "4096"]
            self.serve([command("etcd"), *words], folder, lambda: True)
        for _ in range(600):
            for port in asked:
                if self.leads(port):
                    return EtcdTable(Calls(port))
            time.sleep(0.1)
        fail(f"{self.name} elects no leader")

    def leads(self, port):
        """Whether the node behind a port is the leader."""
        try:
            status = dict(fields(Calls(port).call("/etcdserverpb.Maintenance/Status", b"")))
        except OSError:
            return False
        return status.get(4) == dict(fields(status[1]))[2]


class Etcd1(Etcd):
    name = "etcd 1"


class Etcd3(Etcd):
    name, nodes = "etcd 3", 3


ALL = (Bitable, Sqlite, Logs, Mariadb, Postgresql, Etcd1, Etcd3)
