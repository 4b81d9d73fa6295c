"""Databases that a user might choose in the program's place, each behind the same few calls; for `peers.py`.

A system has a folder, in which all that it keeps is. It is begun over an empty one, fed by writers, each of which may be in a process of
its own, and asked the questions of QUESTIONS, whose answers are lists of tuples: integers, texts, None for no value, times in
microseconds. Servers listen on 127.0.0.1 alone, and end with the process that started them, however that ends.
"""
import ctypes
import datetime
import hashlib
import json
import os
import pwd
import shutil
import signal
import socket
import sqlite3
import struct
import subprocess
import time
from urllib.parse import quote_plus, urlencode

from program import Session, batch, number_in
from server import HOST, connected, free_port, message, served

QUESTIONS = ["all", "hours", "last", "day", "kinds", "joined", "matches"]
DAY = "2024-01-29"
NEXT_DAY = "2024-01-30"
BEGIN, END = 1_706_313_600_000, 1_707_177_600_000  # of the rows: 2024-01-27 to 2024-02-06, in milliseconds
HOUR = 3_600_000
SECONDS = 600  # that anything may take
PAUSE = 0.02
QUIET_SECONDS = 5  # for which the files of a system stay as they are before it counts as settled
PER_REQUEST = 10_000  # rows, where no load says another number
PDEATHSIG = 1  # of prctl(2)
EPOCH = datetime.datetime(1970, 1, 1)


def micros(text):
    """The microseconds since 1970 of a time as databases write it."""
    return (datetime.datetime.fromisoformat(text.rstrip("Z")) - EPOCH) // datetime.timedelta(microseconds=1)


def value(text):
    """A field of a text."""
    return None if text == "" else int(text) if text.lstrip("-").isdigit() else micros(text) if text[0].isdigit() else text


def dies_with_parent():
    """Has a process that was forked end with the one that forked it."""
    ctypes.CDLL(None).prctl(PDEATHSIG, signal.SIGKILL)


STARTED = []  # the processes that this one started


def started(process):
    """Remembers a process."""
    STARTED.append(process)
    return process


def end_all():
    """Ends what still runs of the processes that were started."""
    for process in STARTED:
        if process.poll() is None:
            process.kill()
            process.wait()


def files_of(folder):
    """The paths of all files in a folder and those below."""
    return [os.path.join(place, name) for place, _, names in os.walk(folder) for name in names]


def forget(folder):
    """Has the system forget the pages of a folder's files, so that they are read from the disk again."""
    for path in files_of(folder):
        file = os.open(path, os.O_RDONLY)
        os.fsync(file)
        os.posix_fadvise(file, 0, 0, os.POSIX_FADV_DONTNEED)
        os.close(file)


class Http:
    """A connection over HTTP/1.1, on which whole requests are sent."""

    def __init__(self, port):
        self.socket = socket.create_connection((HOST, port), SECONDS)
        self.socket.setsockopt(socket.IPPROTO_TCP, socket.TCP_NODELAY, 1)
        self.source = self.socket.makefile("rb", 1 << 20)

    def ask(self, request):
        """Sends a request, and gives the body of its response, which has to be a good one."""
        self.socket.sendall(request)
        line, fields = self.source.readline(), {}
        while len(field := self.source.readline()) > 2:
            name, _, text = field.partition(b":")
            fields[name.lower()] = text.strip()
        if fields.get(b"transfer-encoding") == b"chunked":
            body = b"".join(self.chunks())
        else:
            body = self.source.read(int(fields.get(b"content-length", b"0")))
        if line[9:10] != b"2":
            raise ValueError(f"{line.decode().strip()}: {body[:300].decode(errors='replace')}")
        return body

    def chunks(self):
        while size := int(self.source.readline(), 16):
            yield self.source.read(size)
            self.source.readline()
        self.source.readline()

    def close(self):
        self.source.close()
        self.socket.close()


def get(target):
    """A request of HTTP that asks."""
    return b"GET %b HTTP/1.1\r\nHost: %b\r\n\r\n" % (target.encode(), HOST.encode())


def post(target, body=b""):
    """A request of HTTP that brings something."""
    return b"POST %b HTTP/1.1\r\nHost: %b\r\nContent-Length: %d\r\n\r\n" % (target.encode(), HOST.encode(), len(body)) + body


class System:
    """What is measured. `durable` is whether an acknowledged row is on the disk, and `about` says how."""

    packages = ()  # Debian's
    programs = ()  # that have to be there
    lacks = ()  # questions that it has no query for
    showing = "at once"  # when acknowledged rows are seen
    to_settle = False  # whether it is filled to be asked, and no load is measured

    def __init__(self, folder, options):
        self.folder, self.options, self.took = os.path.join(folder, "store"), options, 0

    @classmethod
    def missing(cls, options):
        """What of it isn't there."""
        return [program for program in cls.programs if not shutil.which(program)]

    @classmethod
    def remedy(cls):
        """What to do where something is missing."""
        return f"--install installs {', '.join(cls.packages)}"

    @classmethod
    def version(cls, options):
        """Its version: that of its package, where the system tells."""
        told = subprocess.run(["dpkg-query", "-W", "-f", "${Version}", cls.packages[0]], capture_output=True, text=True)
        return told.stdout if told.returncode == 0 and told.stdout else "of another origin"

    def begin(self, senders):
        """Makes an empty store with its tables, for so many senders."""
        self.open()
        self.create()

    def create(self):
        """Makes the tables, where lines don't."""

    def open(self):
        """Opens the store to be asked."""

    def close(self):
        """Ends it."""

    def read(self):
        """Goes over from being fed to being asked."""

    def settle(self):
        """Has the store as it is best asked, once all rows are there."""

    def writer(self):
        """What writes batches, in the process of a sender."""

    def t(self, rows):
        """What writes these rows of t."""

    def q(self, rows):
        """What writes these rows of q."""

    def ask(self, question):
        """Asks a question, and gives the seconds to the end of its answer, and that."""

    def size(self):
        """The bytes that the tables take on the disk, once it is closed."""
        return sum(os.stat(path).st_blocks * 512 for path in files_of(self.folder))

    def most(self):
        """The most memory that it took, in MB, or None."""
        return None


def lines_of_t(rows):
    """Rows of t as lines of InfluxDB's protocol."""
    return "".join(f"t,host={host},dc={dc} v={v}i,w={w}i,ok={'t' if ok else 'f'} {at}000\n" for host, dc, v, w, ok, at in rows).encode()


def lines_of_q(rows):
    return "".join(f"q,host={host} p={p}i {at}000\n" for host, p, at in rows).encode()


class FrameWriter:
    """A session of the program that is fed, once it answers."""

    def __init__(self, session):
        self.session = session
        self.show()

    def write(self, frame):
        number_in(self.session.ask(frame)[1], b"K")

    def show(self):
        number_in(self.session.ask(b"A\n")[1], b"A")

    def close(self):
        if not self.session.end():
            raise ValueError("the end of a session was answered by something else")


class Program(System):
    """The built program: one sender over the pipes of `run --dir`, several over `serve`."""

    name, durable = "Bontayug", True
    about = "each batch is behind its three syncs once it is acknowledged; one sender over the pipes of `run --dir`, four over TCP to `serve`"
    showing = "behind an apply, which is asked for once all is acknowledged (`serve` applies beside)"
    SQL = {
        "all": "SELECT count(), sum(v), min(v), max(v) FROM t",
        "hours": "SELECT timestamp, host, count(), sum(v) FROM t SAMPLE BY 1h",
        "last": "SELECT host, v, timestamp FROM t LATEST ON timestamp PARTITION BY host",
        "day": f"SELECT count(), sum(v) FROM t WHERE host = 'h7' AND timestamp IN '{DAY}'",
        "kinds": "SELECT dc, count(), sum(v), max(w) FROM t",
        "joined": "SELECT count(), sum(p), sum(v) FROM q ASOF JOIN t ON (host)",
        "matches": "SELECT q.timestamp, q.host, p, v FROM q ASOF JOIN t ON (host)",
    }

    session = server = None

    @classmethod
    def missing(cls, options):
        return [] if os.access(options.program, os.X_OK) else [options.program]

    @classmethod
    def remedy(cls):
        return "build it by `rt run -- run < stdin` in crates/tsdb, or name it by --program"

    @classmethod
    def version(cls, options):
        with open(options.program, "rb") as file:
            return f"SHA-256 {hashlib.sha256(file.read()).hexdigest()[:16]}"

    def begin(self, senders):
        if senders > 1:
            self.server = served(self.options.program, self.folder, preexec_fn=dies_with_parent)
            started(self.server.process)
            self.server.connect().end()

    def open(self):
        self.session = Session(self.options.program, "run", "--dir", self.folder, preexec_fn=dies_with_parent)
        started(self.session.process)
        number_in(self.session.ask(b"A\n")[1], b"A")

    def close(self):
        if self.session:
            self.session.end()
        if self.server:
            self.server.kill()
        self.session = self.server = None

    def read(self):
        self.close()
        self.open()

    def writer(self):
        if self.server:
            client = connected(self.server.port)
            client.socket.settimeout(SECONDS)
            return FrameWriter(client)
        return FrameWriter(Session(self.options.program, "run", "--dir", self.folder, preexec_fn=dies_with_parent))

    def t(self, rows):
        return batch(lines_of_t(rows))

    def q(self, rows):
        return batch(lines_of_q(rows))

    def ask(self, question):
        seconds, line, text = self.session.query(self.SQL[question])
        number_in(line, b"R")
        return seconds, [tuple(map(value, row.split(","))) for row in text.decode().splitlines()[1:]]

    def most(self):
        return self.session.megabytes()


class SqliteWriter:
    """A connection of SQLite that is fed."""

    def __init__(self, database):
        self.database = database

    def write(self, work):
        text, rows = work
        self.database.execute("BEGIN IMMEDIATE")
        self.database.executemany(text, rows)
        self.database.execute("COMMIT")

    def show(self):
        pass

    def close(self):
        self.database.close()


# the last row of each host, by steps over an index (SQLite's and PostgreSQL's documentation on recursive queries)
HOSTS = "WITH RECURSIVE h(host) AS (SELECT min(host) FROM t UNION ALL SELECT (SELECT min(host) FROM t WHERE host > h.host) FROM h WHERE h.host IS NOT NULL)"


class Sqlite(System):
    """SQLite, in the process of each sender and of this script."""

    name, durable = "SQLite", True
    about = "journal_mode=WAL, synchronous=FULL: each commit syncs its log; a library in the sender's process, which binds values, so no text is read"
    SQL = {
        "all": "SELECT count(*), sum(v), min(v), max(v) FROM t",
        "hours": "SELECT at / 3600000000 * 3600000000, host, count(*), sum(v) FROM t GROUP BY 1, 2",
        "last": f"{HOSTS} SELECT t.host, t.v, t.at FROM h JOIN t ON t.rowid = (SELECT rowid FROM t WHERE host = h.host ORDER BY at DESC LIMIT 1)",
        "day": f"SELECT count(*), sum(v) FROM t WHERE host = 'h7' AND at >= {micros(DAY)} AND at < {micros(NEXT_DAY)}",
        "kinds": "SELECT dc, count(*), sum(v), max(w) FROM t GROUP BY dc",
        "joined": "SELECT count(*), sum(p), sum((SELECT v FROM t WHERE t.host = q.host AND t.at <= q.at ORDER BY t.at DESC LIMIT 1)) FROM q",
        "matches": "SELECT at, host, p, (SELECT v FROM t WHERE t.host = q.host AND t.at <= q.at ORDER BY t.at DESC LIMIT 1) FROM q",
    }
    INDEX = "CREATE INDEX t_host_at ON t (host, at)"

    database = None

    @classmethod
    def version(cls, options):
        return sqlite3.sqlite_version

    def connection(self):
        """A connection with the settings."""
        database = sqlite3.connect(os.path.join(self.folder, "rows.db"), timeout=SECONDS, isolation_level=None)
        for pragma in ("journal_mode = WAL", "synchronous = FULL", "cache_size = -1000000"):
            database.execute(f"PRAGMA {pragma}").fetchall()
        return database

    def open(self):
        os.makedirs(self.folder, exist_ok=True)
        self.database = self.connection()

    def create(self):
        self.database.execute("CREATE TABLE t (host TEXT, dc TEXT, v INTEGER, w INTEGER, ok INTEGER, at INTEGER)")
        self.database.execute("CREATE TABLE q (host TEXT, p INTEGER, at INTEGER)")
        if self.options.indexed:
            self.database.execute(self.INDEX)

    def close(self):
        if self.database:
            self.database.close()
        self.database = None

    def settle(self):
        if not self.options.indexed:
            self.database.execute(self.INDEX)
        self.database.execute("ANALYZE")

    def writer(self):
        return SqliteWriter(self.connection())

    def t(self, rows):
        return "INSERT INTO t VALUES (?, ?, ?, ?, ?, ?)", rows

    def q(self, rows):
        return "INSERT INTO q VALUES (?, ?, ?)", rows

    def ask(self, question):
        began = time.perf_counter()
        rows = self.database.execute(self.SQL[question]).fetchall()
        return time.perf_counter() - began, rows


class Server(System):
    """A system that is a process of its own, and listens."""

    process = None
    user = None  # under which it runs where this script is root's

    def words(self):
        """The command that starts it over the folder."""

    def is_ready(self):
        """Whether it answers."""

    def configure(self):
        """Writes what it needs before it starts."""

    def own(self, path):
        """Has the user under which it runs own a path."""
        if self.user and os.geteuid() == 0:
            account = pwd.getpwnam(self.user)
            os.chown(path, account.pw_uid, account.pw_gid)

    def run_as(self):
        return {"user": self.user, "group": self.user, "extra_groups": []} if self.user and os.geteuid() == 0 else {}

    def open(self):
        os.makedirs(self.folder, exist_ok=True)
        self.own(self.folder)
        self.port, self.second_port = free_port(), free_port()
        self.configure()
        with open(os.path.join(os.path.dirname(self.folder), "said"), "ab") as said:
            self.process = started(subprocess.Popen(self.words(), stdin=subprocess.DEVNULL, stdout=said, stderr=said,
                                                    preexec_fn=dies_with_parent, cwd=self.folder, **self.run_as()))
        until = time.monotonic() + SECONDS
        while not self.is_ready():
            if self.process.poll() is not None or time.monotonic() > until:
                raise ValueError(f"it doesn't start: {self.said()}")
            time.sleep(PAUSE)

    def said(self):
        """The end of what it said."""
        with open(os.path.join(os.path.dirname(self.folder), "said"), "rb") as said:
            return said.read()[-500:].decode(errors="replace")

    def close(self):
        if not self.process:
            return
        self.process.send_signal(signal.SIGINT)
        try:
            self.process.wait(SECONDS / 10)
        except subprocess.TimeoutExpired:
            self.process.kill()
            self.process.wait()
        self.process = None

    def most(self):
        with open(f"/proc/{self.process.pid}/status") as status:
            return next(int(line.split()[1]) for line in status if line.startswith("VmHWM")) / 1024


READY = message(b"Z", b"I")  # of PostgreSQL, for the next statement


class PgClient:
    """A connection to PostgreSQL, which is asked by simple queries."""

    def __init__(self, port):
        self.socket = socket.create_connection((HOST, port), SECONDS)
        self.socket.setsockopt(socket.IPPROTO_TCP, socket.TCP_NODELAY, 1)
        names = b"user\0bench\0database\0postgres\0\0"
        self.answer_to(struct.pack(">II", 8 + len(names), 196_608) + names)

    def answer_to(self, request, last=READY):
        """Sends a request, and gives all that comes up to its end."""
        self.socket.sendall(request)
        pieces, end = [], b""
        while not end.endswith((last, READY)):
            piece = self.socket.recv(1 << 20)
            if not piece:
                raise ConnectionError("PostgreSQL isn't ready")
            pieces.append(piece)
            end = (end + piece)[-max(len(last), len(READY)):]
        return b"".join(pieces)

    def sql(self, text):
        """Asks a statement, and gives its answer, which has to be a good one."""
        return self.good(self.answer_to(message(b"Q", text.encode() + b"\0")))

    @staticmethod
    def good(answer):
        if answer[:1] == b"E":
            raise ValueError(answer[5:305].replace(b"\0", b" ").decode(errors="replace"))
        return answer

    def write(self, work):
        """Copies the rows of a text into a table."""
        copy, rows = work
        columns = copy.count(b",") + 1
        self.good(self.answer_to(copy, message(b"G", struct.pack(">BH", 0, columns) + bytes(2 * columns))))
        self.good(self.answer_to(rows))

    def show(self):
        pass

    def close(self):
        self.socket.sendall(message(b"X"))
        self.socket.close()


def rows_of(answer):
    """The rows of PostgreSQL's answer."""
    place = 0
    while place < len(answer):
        kind, size = answer[place:place + 1], int.from_bytes(answer[place + 1:place + 5], "big")
        if kind == b"D":
            at, cells = place + 7, []
            for _ in range(int.from_bytes(answer[place + 5:place + 7], "big")):
                length = int.from_bytes(answer[at:at + 4], "big", signed=True)
                cells.append(None if length < 0 else value(answer[at + 4:at + 4 + length].decode()))
                at += 4 + max(length, 0)
            yield tuple(cells)
        place += 1 + size


class Postgres(Server):
    """PostgreSQL, fed by COPY."""

    name, durable, packages, user = "PostgreSQL", True, ("postgresql",), "postgres"
    about = "fsync, synchronous_commit and full_page_writes on, as it comes: each COPY is a transaction; shared_buffers 1GB, max_wal_size 4GB"
    LATERAL = "LEFT JOIN LATERAL (SELECT v FROM t WHERE t.host = q.host AND t.at <= q.at ORDER BY t.at DESC LIMIT 1) m ON true"
    SQL = {
        "all": "SELECT count(*), sum(v), min(v), max(v) FROM t",
        "hours": "SELECT date_trunc('hour', at), host, count(*), sum(v) FROM t GROUP BY 1, 2",
        "last": f"{HOSTS} SELECT l.* FROM h, LATERAL (SELECT host, v, at FROM t WHERE host = h.host ORDER BY at DESC LIMIT 1) l",
        "day": f"SELECT count(*), sum(v) FROM t WHERE host = 'h7' AND at >= '{DAY}' AND at < '{NEXT_DAY}'",
        "kinds": "SELECT dc, count(*), sum(v), max(w) FROM t GROUP BY dc",
        "joined": f"SELECT count(*), sum(p), sum(m.v) FROM q {LATERAL}",
        "matches": f"SELECT q.at, q.host, p, m.v FROM q {LATERAL}",
    }
    INDEX = "CREATE INDEX t_host_at ON t (host, at)"

    @classmethod
    def tool(cls, name):
        """The path of one of its programs, of the newest version that is there, or None."""
        home = "/usr/lib/postgresql"
        versions = sorted(filter(str.isdigit, os.listdir(home)), key=int) if os.path.isdir(home) else []
        found = [os.path.join(home, each, "bin", name) for each in versions]
        found = [path for path in found if os.access(path, os.X_OK)]
        return found[-1] if found else shutil.which(name)

    @classmethod
    def missing(cls, options):
        return [name for name in ("initdb", "postgres") if not cls.tool(name)]

    @classmethod
    def version(cls, options):
        return subprocess.run([cls.tool("postgres"), "--version"], capture_output=True, text=True, check=True).stdout.split()[-1].strip("()")

    def configure(self):
        """Copies an empty cluster, which is made once for all stores."""
        made = os.path.join(self.options.folder, "cluster")
        if not os.path.isdir(made):
            os.makedirs(made)
            self.own(made)
            done = subprocess.run([self.tool("initdb"), "-D", made, "-U", "bench", "-A", "trust", "-E", "UTF8", "--locale=C", "--no-sync"],
                                  capture_output=True, text=True, cwd="/", **self.run_as())
            if done.returncode:
                shutil.rmtree(made)
                raise ValueError(f"initdb: {done.stderr[-300:]}")
        if not os.listdir(self.folder):
            subprocess.run(["cp", "-a", made + "/.", self.folder], check=True)

    def words(self):
        settings = {"listen_addresses": HOST, "port": self.port, "unix_socket_directories": "", "shared_buffers": "1GB", "max_wal_size": "4GB",
                    "fsync": "on", "synchronous_commit": "on", "full_page_writes": "on"}
        return [self.tool("postgres"), "-D", self.folder] + [word for name, text in settings.items() for word in ("-c", f"{name}={text}")]

    def is_ready(self):
        try:
            self.client = PgClient(self.port)
        except OSError:
            return False
        return True

    def create(self):
        self.client.sql("CREATE TABLE t (host text, dc text, v bigint, w bigint, ok boolean, at timestamp)")
        self.client.sql("CREATE TABLE q (host text, p bigint, at timestamp)")
        if self.options.indexed:
            self.client.sql(self.INDEX)

    def settle(self):
        if not self.options.indexed:
            self.client.sql(self.INDEX)
        self.client.sql("VACUUM ANALYZE t")
        self.client.sql("VACUUM ANALYZE q")
        self.client.sql("CHECKPOINT")
        self.taken = next(rows_of(self.client.sql("SELECT pg_total_relation_size('t') + pg_total_relation_size('q')")))[0]

    def size(self):
        return self.taken

    def most(self):
        return None

    def writer(self):
        return PgClient(self.port)

    @staticmethod
    def copy(columns, text):
        rows = message(b"d", text.encode()) + message(b"c")
        return message(b"Q", f"COPY {columns} FROM STDIN\0".encode()), rows

    def t(self, rows):
        return self.copy("t (host, dc, v, w, ok, at)", "".join(f"{host}\t{dc}\t{v}\t{w}\t{'t' if ok else 'f'}\t{EPOCH + datetime.timedelta(microseconds=at)}\n"
                                                              for host, dc, v, w, ok, at in rows))

    def q(self, rows):
        return self.copy("q (host, p, at)", "".join(f"{host}\t{p}\t{EPOCH + datetime.timedelta(microseconds=at)}\n" for host, p, at in rows))

    def ask(self, question):
        began = time.perf_counter()
        answer = self.client.sql(self.SQL[question])
        return time.perf_counter() - began, list(rows_of(answer))


class HttpWriter:
    """A connection over HTTP that is fed."""

    def __init__(self, port, show=None):
        self.http, self.request = Http(port), show

    def write(self, request):
        self.http.ask(request)

    def show(self):
        if self.request:
            self.http.ask(self.request)

    def close(self):
        self.http.close()


class HttpServer(Server):
    """A server of HTTP."""

    ping = "/ping"

    def is_ready(self):
        try:
            self.asked(get(self.ping))
        except (OSError, ValueError):
            return False
        return True

    def asked(self, request):
        """The seconds of a request, over a connection that is there, and its response."""
        http = Http(self.port)
        began = time.perf_counter()
        body = http.ask(request)
        seconds = time.perf_counter() - began
        http.close()
        return seconds, body

    def writer(self):
        return HttpWriter(self.port)


INFLUX = """reporting-disabled = true
bind-address = "{host}:{second_port}"
[meta]
  dir = "{folder}/meta"
[data]
  dir = "{folder}/data"
  wal-dir = "{folder}/wal"
  wal-fsync-delay = "0s"
  cache-snapshot-write-cold-duration = "{cold}"
  compact-full-write-cold-duration = "{cold_full}"
  query-log-enabled = false
[monitor]
  store-enabled = false
[continuous_queries]
  enabled = false
[http]
  bind-address = "{host}:{port}"
  log-enabled = false
"""


class Influx(HttpServer):
    """InfluxDB 1, fed by lines over HTTP."""

    name, durable, packages, programs, lacks = "InfluxDB", True, ("influxdb",), ("influxd",), ("joined", "matches")
    about = "wal-fsync-delay 0s, as it comes: each write syncs its log; lines over HTTP; it has no ASOF join"
    SQL = {
        "all": "SELECT count(v), sum(v), min(v), max(v) FROM t",
        "hours": f"SELECT count(v), sum(v) FROM t WHERE time >= {BEGIN}ms AND time < {END}ms GROUP BY time(1h), host fill(none)",
        "last": "SELECT last(v) FROM t GROUP BY host",
        "day": f"SELECT count(v), sum(v) FROM t WHERE host = 'h7' AND time >= '{DAY}' AND time < '{NEXT_DAY}'",
        "kinds": "SELECT count(v), sum(v), max(w) FROM t GROUP BY dc",
    }
    SHAPES = {  # of a row of the answer, from its time, its values and its tag
        "all": lambda at, values, tag: tuple(values),
        "hours": lambda at, values, tag: (at, tag, *values),
        "last": lambda at, values, tag: (tag, *values, at),
        "day": lambda at, values, tag: tuple(values),
        "kinds": lambda at, values, tag: (tag, *values),
    }

    AS_IT_COMES, SOON = ("10m", "4h"), ("1s", "1s")  # how long nothing has to come before all is written as columns, and before these are joined

    def configure(self):
        cold, cold_full = self.SOON if self.to_settle else self.AS_IT_COMES
        with open(os.path.join(self.folder, "influx.conf"), "w") as file:
            file.write(INFLUX.format(host=HOST, folder=self.folder, port=self.port, second_port=self.second_port, cold=cold, cold_full=cold_full))

    def settle(self):
        """Waits until it has written all rows as columns, and joined these."""
        until, found, same = time.monotonic() + SECONDS, None, 0
        while same < QUIET_SECONDS:
            if time.monotonic() > until:
                raise ValueError("its files don't come to rest")
            time.sleep(1)
            now = [(path, os.path.getsize(path)) for path in files_of(self.folder) if path.endswith((".tsm", ".wal", ".tmp"))]
            is_done = now == found and not any(size for path, size in now if not path.endswith(".tsm"))
            found, same = now, same + 1 if is_done else 0

    def words(self):
        return ["influxd", "run", "-config", os.path.join(self.folder, "influx.conf")]

    def query(self, text):
        return self.asked(post("/query?" + urlencode({"db": "rows", "epoch": "u", "q": text})))

    def create(self):
        self.query("CREATE DATABASE rows")

    def t(self, rows):
        return post("/write?db=rows", lines_of_t(rows))

    def q(self, rows):
        return post("/write?db=rows", lines_of_q(rows))

    def ask(self, question):
        seconds, body = self.query(self.SQL[question])
        (result,) = json.loads(body)["results"]
        shape = self.SHAPES[question]
        if "error" in result:
            raise ValueError(result["error"])
        return seconds, [shape(row[0], row[1:], next(iter(series.get("tags", {}).values()), None))
                         for series in result.get("series", ()) for row in series["values"]]


class Victoria(HttpServer):
    """VictoriaMetrics, fed by lines over HTTP. Its values are floating point, and its times milliseconds."""

    name, durable, packages, programs, lacks = "VictoriaMetrics", False, ("victoria-metrics",), ("victoria-metrics",), ("joined", "matches")
    about = ("rows are acknowledged in memory and synced about a second later, which no setting changes; lines over HTTP; no cache of answers "
             "(nocache=1); it has no ASOF join")
    showing = "behind /internal/force_flush"
    ping = "/health"
    ALL = ("count_over_time", "sum_over_time", "min_over_time", "max_over_time")
    SPAN = "t_v[10d]"

    @classmethod
    def rolled(cls, functions, series):
        return "aggr_over_time((" + ",".join(f'"{each}"' for each in functions) + f"), {series})"

    @staticmethod
    def one(query, name):
        """A query whose series are named as those of several functions are."""
        return f'label_set({query}, "rollup", "{name}")'

    def expression(self, question):
        """The query and its parameters."""
        at_end = {"time": f"{END / 1000 - 0.001:.3f}"}
        if question == "all":
            sums = self.rolled(self.ALL[:2], self.SPAN)
            ends = ", ".join(self.one(f"{name}({name}_over_time({self.SPAN}))", f"{name}_over_time") for name in ("min", "max"))
            return f"union(sum({sums}) by (rollup), {ends})", at_end
        if question == "hours":
            span = {"start": f"{(BEGIN + HOUR) / 1000 - 0.001:.3f}", "end": at_end["time"], "step": "1h"}
            return self.rolled(self.ALL[:2], "t_v[1h]"), span
        if question == "last":
            return self.rolled(("last_over_time", "tlast_over_time"), self.SPAN), at_end
        if question == "day":
            return self.rolled(self.ALL[:2], 't_v{host="h7"}[1d]'), {"time": f"{micros(NEXT_DAY) / 1e6 - 0.001:.3f}"}
        most = self.one("max(max_over_time(t_w[10d])) by (dc)", "max_over_time")
        return f"union(sum({self.rolled(self.ALL[:2], self.SPAN)}) by (dc, rollup), {most})", at_end

    def settle(self):
        """Has it join its files."""
        self.asked(post("/internal/force_flush"))
        self.asked(post("/internal/force_merge"))
        until = time.monotonic() + SECONDS
        time.sleep(QUIET_SECONDS)  # it begins behind its answer
        while b"vm_active_force_merges 0" not in self.asked(get("/metrics"))[1]:
            if time.monotonic() > until:
                raise ValueError("its merges don't end")
            time.sleep(1)

    def words(self):
        return ["victoria-metrics", f"-storageDataPath={self.folder}", f"-httpListenAddr={HOST}:{self.port}", "-retentionPeriod=100y",
                "-loggerLevel=ERROR"]

    def writer(self):
        return HttpWriter(self.port, post("/internal/force_flush"))

    def t(self, rows):
        return post("/write", lines_of_t(rows))

    def q(self, rows):
        return post("/write", lines_of_q(rows))

    def ask(self, question):
        query, parameters = self.expression(question)
        path = "/api/v1/query_range" if "step" in parameters else "/api/v1/query"
        seconds, body = self.asked(post(f"{path}?{urlencode({'query': query, 'nocache': 1, **parameters})}"))
        found = {}
        for series in json.loads(body)["data"]["result"]:
            of = series["metric"]
            for at, text in series.get("values") or [series["value"]]:
                start = round(at * 1000) + 1 - HOUR
                key = {"hours": (start * 1000, of.get("host")), "last": of.get("host"), "kinds": of.get("dc")}.get(question)
                found.setdefault(key, {})[of["rollup"]] = float(text)
        return seconds, [self.row(question, key, rolled) for key, rolled in found.items()]

    @classmethod
    def row(cls, question, key, rolled):
        """A row of the answer, from what its series have."""
        count, total, least, most = (rolled.get(name) for name in cls.ALL)
        if question == "last":
            return key, int(rolled["last_over_time"]), round(rolled["tlast_over_time"] * 1000) * 1000
        key = () if key is None else key if isinstance(key, tuple) else (key,)
        return (*key, *(int(each) for each in (count, total, least, most) if each is not None))


CLICKHOUSE = """<yandex>
<logger><level>error</level><log>{folder}/log</log><errorlog>{folder}/errors</errorlog></logger>
<http_port>{port}</http_port><tcp_port>{second_port}</tcp_port><listen_host>{host}</listen_host>
<path>{folder}/data/</path><tmp_path>{folder}/tmp/</tmp_path><user_files_path>{folder}/user/</user_files_path>
<format_schema_path>{folder}/schemas/</format_schema_path><mark_cache_size>1073741824</mark_cache_size>
<users_config>{folder}/users.xml</users_config><default_profile>default</default_profile><default_database>default</default_database>
</yandex>
"""
CLICKHOUSE_USERS = """<yandex><profiles><default><allow_experimental_low_cardinality_type>1</allow_experimental_low_cardinality_type></default></profiles>
<users><default><password></password><networks><ip>{host}</ip></networks><profile>default</profile><quota>default</quota></default></users>
<quotas><default></default></quotas></yandex>
"""


class ClickHouse(HttpServer):
    """ClickHouse, fed by tab-separated rows over HTTP."""

    name, durable, packages, programs, lacks = "ClickHouse", False, ("clickhouse-server",), ("clickhouse-server",), ("joined", "matches")
    about = "parts are written and not synced, which no setting of this version changes; MergeTree by (host, at), a partition a day; this version has no ASOF join"
    ping = "/ping"
    DAYS = "intDiv(at, 86400000000)"
    SQL = {
        "all": "SELECT count(), sum(v), min(v), max(v) FROM t",
        "hours": "SELECT intDiv(at, 3600000000) * 3600000000 AS h, toString(host), count(), sum(v) FROM t GROUP BY h, host",
        "last": "SELECT toString(host), argMax(v, at), max(at) FROM t GROUP BY host",
        "day": f"SELECT count(), sum(v) FROM t WHERE host = 'h7' AND at >= {micros(DAY)} AND at < {micros(NEXT_DAY)}",
        "kinds": "SELECT toString(dc), count(), sum(v), max(w) FROM t GROUP BY dc",
    }

    @classmethod
    def missing(cls, options):
        return [] if cls.server() else list(cls.programs)

    @staticmethod
    def server():
        return shutil.which("clickhouse-server", path=os.environ.get("PATH", "") + ":/usr/sbin")

    def configure(self):
        for name, text in (("config.xml", CLICKHOUSE), ("users.xml", CLICKHOUSE_USERS)):
            with open(os.path.join(self.folder, name), "w") as file:
                file.write(text.format(host=HOST, folder=self.folder, port=self.port, second_port=self.second_port))

    def words(self):
        return [self.server(), f"--config-file={self.folder}/config.xml"]

    def query(self, text):
        return self.asked(post("/", text.encode()))

    def create(self):
        self.query(f"CREATE TABLE t (host LowCardinality(String), dc LowCardinality(String), v Int64, w Int64, ok UInt8, at Int64) "
                   f"ENGINE = MergeTree PARTITION BY {self.DAYS} ORDER BY (host, at)")
        self.query(f"CREATE TABLE q (host LowCardinality(String), p Int64, at Int64) ENGINE = MergeTree PARTITION BY {self.DAYS} ORDER BY (host, at)")

    def settle(self):
        self.query("OPTIMIZE TABLE t FINAL")
        self.query("OPTIMIZE TABLE q FINAL")

    @staticmethod
    def insert(table, rows):
        text = "".join("\t".join(map(str, row)) + "\n" for row in rows)
        return post(f"/?query={quote_plus(f'INSERT INTO {table} FORMAT TabSeparated')}", text.encode())

    def t(self, rows):
        return self.insert("t", rows)

    def q(self, rows):
        return self.insert("q", rows)

    def ask(self, question):
        seconds, body = self.query(self.SQL[question])
        return seconds, [tuple(map(value, row.split("\t"))) for row in body.decode().splitlines()]


SYSTEMS = [Program, Sqlite, Postgres, Influx, Victoria, ClickHouse]
