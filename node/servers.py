# SPDX-License-Identifier: Apache-2.0
"""The databases that the trials use: files of SQLite, and servers of PostgreSQL that are begun here."""

import os
import pwd
import re
import shutil
import sqlite3
import subprocess
import time
from pathlib import Path

# How long a server may take for anything.
SECONDS = 60
# What each server has. The trials kill processes and not machines, so the servers need not sync.
SETTINGS = {"listen_addresses": "''", "max_connections": "60", "shared_buffers": "16MB", "fsync": "off", "wal_keep_size": "256MB", "max_wal_size": "1GB",
            "log_min_messages": "fatal", "autovacuum": "off", "timezone": "UTC"}
# Rows that compaction deletes are kept beside the log, so that a trial can read all of it in the end.
KEEP = {
    "sqlite": "CREATE TABLE kept(seq INTEGER PRIMARY KEY, lines BLOB);"
    "CREATE TRIGGER keep AFTER DELETE ON log BEGIN INSERT INTO kept VALUES(old.seq, old.lines); END",
    "postgresql": "CREATE TABLE kept(seq bigint PRIMARY KEY, lines bytea);"
    "CREATE FUNCTION keep() RETURNS trigger LANGUAGE plpgsql AS $$ BEGIN INSERT INTO kept VALUES(old.seq, old.lines); RETURN old; END $$;"
    "CREATE TRIGGER keep AFTER DELETE ON log FOR EACH ROW EXECUTE FUNCTION keep()",
}
TABLES = ("image", "kunchrol", "log")


class Store:
    """What all stores have."""

    def keep_rows(self):
        self.change(KEEP[self.where.partition(":")[0]])

    def row_texts(self, after=0):
        """The text of each row after this one, compacted or not, by its number."""
        return dict(self.asked(f"SELECT seq, lines FROM log WHERE seq > {after} UNION SELECT seq, lines FROM kept WHERE seq > {after} ORDER BY seq"))

    def image(self):
        return self.asked("SELECT records, image FROM image ORDER BY seq DESC LIMIT 1")


class SqliteStore(Store):
    """A file of SQLite."""

    def __init__(self, path):
        self.path, self.where = Path(path), f"sqlite:{path}"

    def asked(self, sql):
        """The rows that the database answers with; it is closed after that."""
        database = sqlite3.connect(self.path)
        found = database.execute(sql).fetchall()
        database.close()
        return found

    def change(self, sql):
        database = sqlite3.connect(self.path)
        database.executescript(sql)
        database.close()

    def copied(self, name):
        """A copy of it, which no process uses."""
        copy = SqliteStore(self.path.with_name(name))
        shutil.copy(self.path, copy.path)
        return copy

    def held(self):
        """A session that keeps others from writing."""
        session = sqlite3.connect(self.path, isolation_level=None)
        session.execute("BEGIN IMMEDIATE")
        return session

    def dumped(self):
        """All that is in it, or the octets of a file that is none."""
        try:
            names = [name for (name,) in self.asked("SELECT name FROM sqlite_master WHERE type = 'table' ORDER BY name")]
            return [(name, self.asked(f"SELECT * FROM {name}")) for name in names]
        except sqlite3.DatabaseError:
            return self.path.read_bytes()

    @staticmethod
    def literal(octets):
        return f"X'{octets.hex()}'"


class Sqlite:
    """Where stores of SQLite lie: a folder."""

    # How long a start and a commit take, about; how many beginnings are tried, and every which damage; what is said where no store is.
    start_seconds, commit_seconds, beginnings, step, none_said = 0.006, 0.001, 10, 1, "unable to open"

    def __init__(self, folder):
        self.folder = Path(folder)
        self.folder.mkdir()

    def store(self, name):
        return SqliteStore(self.folder / name)


# ---- PostgreSQL


def programs_of_postgresql():
    """The folder of the server's programs, or None."""
    folders = sorted(Path("/usr/lib/postgresql").glob("*/bin"), key=lambda it: int(it.parent.name), reverse=True)
    return next((it for it in folders if (it / "initdb").exists()), None)


BIN = programs_of_postgresql()
# A server does not run as root.
USER = {"user": pwd.getpwnam("nobody").pw_uid, "group": pwd.getpwnam("nobody").pw_gid, "extra_groups": []} if os.getuid() == 0 else {}
OWNER = pwd.getpwuid(USER.get("user", os.getuid())).pw_name


def wait_for(what, told, seconds=SECONDS):
    until = time.monotonic() + seconds
    while not (found := what()):
        if time.monotonic() > until:
            raise subprocess.TimeoutExpired(told, seconds)
        time.sleep(0.01)
    return found


def is_running(pid):
    """Whether a process is there that is more than an entry which its parent has not yet taken."""
    try:
        return Path(f"/proc/{pid}/stat").read_text().rpartition(")")[2].split()[0] != "Z"
    except OSError:
        return False


class Server:
    """A server of PostgreSQL, in a folder of its own, with a socket there. `before` are words before its command."""

    def __init__(self, folder, port=7480, before=(), **settings):
        self.folder, self.port, self.before, self.host = Path(folder), port, list(before), str(folder)
        self.settings, self.process, self.small = {**SETTINGS, **settings}, None, None
        self.folder.mkdir()
        if USER:
            os.chown(self.folder, USER["user"], USER["group"])

    def run(self, program, *words, check=True):
        return subprocess.run([*self.before, BIN / program, *words], check=check, capture_output=True, text=True, timeout=SECONDS, cwd=self.folder, **USER)

    def make(self):
        self.run("initdb", "-D", "data", "-A", "trust", "-U", OWNER, "-N", "--no-locale", "-E", "UTF8")
        return self

    def copy(self, other, host):
        """Becomes a standby of another server."""
        shutil.rmtree(self.folder / "data", ignore_errors=True)
        self.run("pg_basebackup", "-h", host, "-p", str(other.port), "-U", OWNER, "-D", "data", "-R", "-X", "stream", "-c", "fast", "-N")

    def start(self, **settings):
        with open(self.folder / "data/postgresql.conf", "a") as file:
            own = {"unix_socket_directories": f"'{self.folder}'", "port": self.port}
            file.write("".join(f"{name} = {value}\n" for name, value in {**self.settings, **own, **settings}.items()))
        (self.folder / "data/postmaster.pid").unlink(missing_ok=True)
        with open(self.folder / "log", "a") as log:
            self.process = subprocess.Popen([*self.before, BIN / "postgres", "-D", "data"], stdin=subprocess.DEVNULL, stdout=log, stderr=log, cwd=self.folder, **USER)
        wait_for(lambda: self.sql("SELECT 1", check=False) == [(1,)], "a server")
        return self

    def kill(self):
        """Ends the whole server at once, its head first, as if its machine had gone."""
        head = self.process.pid
        pids = [head, *map(int, Path(f"/proc/{head}/task/{head}/children").read_text().split())]
        for pid in pids:
            try:
                os.kill(pid, 9)
            except ProcessLookupError:
                pass
        self.process.wait(SECONDS)
        wait_for(lambda: not any(map(is_running, pids)), "the end of a server")
        self.process = None

    def sql(self, text, database="postgres", check=True):
        """The rows of the last statement; numbers and octets as such."""
        words = ["psql", "-h", str(self.folder), "-p", str(self.port), "-U", OWNER, "-d", database, "-AtXq", "-v", "ON_ERROR_STOP=1", "-c", text]
        done = subprocess.run(words, capture_output=True, text=True, timeout=SECONDS)
        if done.returncode and check:
            raise RuntimeError(f"{database}: {text[:200]}: {done.stderr}")
        return [tuple(map(value_of, line.split("|"))) for line in done.stdout.splitlines()]


    def has_small_disk(self):
        """Makes the table space `small`, on a disk of 4 MB, if that can be mounted."""
        place = self.folder / "small"
        place.mkdir()
        if USER == {} or subprocess.run(["mount", "-t", "tmpfs", "-o", f"size=4m,uid={USER['user']}", "none", place], capture_output=True).returncode:
            return False
        self.small = place
        self.sql(f"CREATE TABLESPACE small LOCATION '{place}'")
        return True

    def end(self):
        if self.process:
            self.kill()
        if self.small:
            subprocess.run(["umount", self.small], check=True)


def value_of(text):
    return bytes.fromhex(text[2:]) if text.startswith("\\x") else int(text) if re.fullmatch(r"-?\d+", text) else text


class PostgresqlSession:
    """A session whose transaction keeps others from writing."""

    def __init__(self, server, database):
        words = ["psql", "-h", server.folder, "-p", str(server.port), "-U", OWNER, "-d", database, "-AtXq"]
        self.process = subprocess.Popen(words, stdin=subprocess.PIPE, stdout=subprocess.PIPE, text=True)
        self.execute("BEGIN; LOCK TABLE log, image IN SHARE ROW EXCLUSIVE MODE")

    def execute(self, sql):
        self.process.stdin.write(f"{sql};\n\\echo done\n")
        self.process.stdin.flush()
        while self.process.stdout.readline() not in ("done\n", ""):
            pass

    def close(self):
        self.process.communicate("", timeout=SECONDS)


class PostgresqlStore(Store):
    """A database of a server."""

    def __init__(self, server, database):
        self.server, self.database = server, database
        self.where = f"postgresql:host={server.folder} port={server.port} user={OWNER} dbname={database}"

    def asked(self, sql):
        return self.server.sql(sql, self.database)

    change = asked

    def copied(self, name):
        copy = PostgresqlStore(self.server, f"{self.database}_{name}")
        self.server.sql(f'DROP DATABASE IF EXISTS "{copy.database}" WITH (FORCE)')
        wait_for(lambda: self.server.sql(f"SELECT count(*) FROM pg_stat_activity WHERE datname = '{self.database}'") == [(0,)], "the end of connections")
        self.server.sql(f'CREATE DATABASE "{copy.database}" TEMPLATE "{self.database}"')
        return copy

    def held(self):
        return PostgresqlSession(self.server, self.database)

    def dumped(self):
        """A checksum of each of its tables."""
        rows = "query_to_xml(format('SELECT * FROM %I ORDER BY 1', tablename), true, false, '')"
        return self.asked(f"SELECT tablename, md5({rows}::text) FROM pg_tables WHERE schemaname = 'public' ORDER BY 1")

    @staticmethod
    def literal(octets):
        return f"'\\x{octets.hex()}'::bytea"


class Postgresql:
    """Where stores of PostgreSQL lie: a server, each store a database of its own; and a folder for other files."""

    start_seconds, commit_seconds, beginnings, step, none_said = 0.03, 0.002, 4, 5, "is not a store"

    def __init__(self, server, folder):
        self.server, self.folder = server, Path(folder)
        self.folder.mkdir()

    def store(self, name):
        database = f"{self.folder.name}_{name}"
        self.server.sql(f'CREATE DATABASE "{database}"')
        return PostgresqlStore(self.server, database)
