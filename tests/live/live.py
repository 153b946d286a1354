"""The program over sockets, on loopback alone: clients and a server of this file's own around `serve`.

python3 live.py PROGRAM WORD.. runs every case, with a gateway for each group of them, and ends with status 0 where all passed.
With ONLY=TEXT in the environment it runs the groups alone of whose names that is a part.
Each group tells how many lines it opens, and the gateway is to stop by itself after so many.
"""

import calendar
import os
import queue
import re
import resource
import select
import shutil
import signal
import socket
import struct
import subprocess
import sys
import tempfile
import threading
import time

PATIENCE = 20.0  # seconds for one answer
ALL = 240  # seconds for everything

HEAD_END = b"\r\n\r\n"
# A filter that counts requests in a metric.
HERE = os.path.dirname(os.path.abspath(__file__))
METER = os.path.join(HERE, "..", "..", "examples", "filters", "meter.wasm")
# A filter with a callback for bodies of responses, which holds one to its end and writes its letters as capitals.
SHOUT = os.path.join(HERE, "..", "..", "examples", "filters", "shout.wasm")
# A filter that gives random bytes, writes lines of the log, ticks and dies, as the last byte of a path asks: teller.c.
TELLER = os.path.join(HERE, "teller.wasm")
# A filter that takes long for each piece of a request's body: busy.c.
BUSY = os.path.join(HERE, "busy.wasm")
# A filter that answers each request with what the server answers to a callout for the same path: caller.c.
CALLER = os.path.join(HERE, "caller.wasm")
# Filters of an operator: a line of the log for each exchange, an answer of a route's own, and counts of responses.
OPERATORS = [os.path.join(HERE, "..", "..", "examples", "filters", name + ".wasm") for name in ("exchange_log", "healthz", "metrics")]
# Filters of the cases of `tests/run`: one holds a request until a notice comes, and one puts the request's path into the first one's queue.
WAITS = os.path.join(HERE, "..", "modules", "waits_for_notice.wasm")
ENQUEUES = os.path.join(HERE, "..", "modules", "enqueues_path.wasm")


def closed_port(address="127.0.0.1"):
    """A port of an address at which nobody listens."""
    with socket.socket() as s:
        s.bind((address, 0))
        return s.getsockname()[1]


def reset(s):
    """Ends a connection by a reset."""
    s.setsockopt(socket.SOL_SOCKET, socket.SO_LINGER, struct.pack("ii", 1, 0))
    s.close()


class Reader:
    """Reads messages from a connection."""

    def __init__(self, s):
        self.s = s
        self.left = b""

    def more(self):
        piece = self.s.recv(65536)
        self.left += piece
        return bool(piece)

    def head(self):
        while HEAD_END not in self.left:
            if not self.more():
                raise EOFError("no whole head: %r" % self.left[:200])
        head, self.left = self.left.split(HEAD_END, 1)
        lines = head.decode("latin-1").split("\r\n")
        fields = {}
        for line in lines[1:]:
            name, value = line.split(":", 1)
            fields[name.strip().lower()] = value.strip()
        return lines[0], fields

    def exactly(self, count):
        while len(self.left) < count:
            if not self.more():
                raise EOFError("%d of %d bytes" % (len(self.left), count))
        piece, self.left = self.left[:count], self.left[count:]
        return piece

    def line(self):
        while b"\r\n" not in self.left:
            if not self.more():
                raise EOFError("no whole line")
        line, self.left = self.left.split(b"\r\n", 1)
        return line

    def rest(self):
        while self.more():
            pass
        piece, self.left = self.left, b""
        return piece

    def body(self, fields, to_end=False):
        if fields.get("transfer-encoding", "").lower() == "chunked":
            whole = b""
            while True:
                size = int(self.line().split(b";")[0], 16)
                if size == 0:
                    while self.line():
                        pass
                    return whole
                whole += self.exactly(size)
                self.line()
        if "content-length" in fields:
            return self.exactly(int(fields["content-length"]))
        return self.rest() if to_end else b""


def answer(body, status="200 OK"):
    return b"HTTP/1.1 %s\r\nContent-Length: %d\r\n\r\n" % (status.encode(), len(body)) + body


# What an answer of 502 looks like.
QUOTED = b"HTTP/1.1 502 \r\ncontent-length: 0\r\n\r\n"


class Upstream:
    """A server at an address. What it does is in the path of the request. It keeps what it read, by path."""

    def __init__(self, address="127.0.0.1", sips=False):
        self.seen = {}
        # How often a case has let it go on, and what it tells the case.
        self.may = threading.Semaphore(0)
        self.told = queue.Queue()
        self.address = address
        self.listener = socket.socket()
        self.listener.setsockopt(socket.SOL_SOCKET, socket.SO_REUSEADDR, 1)
        self.listener.bind((address, 0))
        if sips:
            # Little room and small segments: the system of what sends takes less, so that more waits there.
            self.listener.setsockopt(socket.SOL_SOCKET, socket.SO_RCVBUF, 65536)
            self.listener.setsockopt(socket.IPPROTO_TCP, socket.TCP_MAXSEG, 1400)
        self.listener.listen(128)
        self.port = self.listener.getsockname()[1]
        threading.Thread(target=self.accept, daemon=True).start()

    def accept(self):
        while True:
            try:
                s, _ = self.listener.accept()
            except OSError:
                return
            threading.Thread(target=self.serve, args=(s,), daemon=True).start()

    def serve(self, s):
        s.settimeout(3 * PATIENCE)
        try:
            self.serve_one(s)
        except (OSError, EOFError, ValueError):
            pass
        finally:
            s.close()

    def serve_one(self, s):
        reader = Reader(s)
        first, fields = reader.head()
        path = first.split(" ")[1]
        self.seen[path] = (first, fields)
        if path == "/silent":
            # Reads the request, and says nothing until the connection is closed.
            reader.rest()
            return
        if path == "/reset":
            reset(s)
            return
        if path == "/hang-up":
            return
        if path == "/nonsense":
            s.sendall(b"HTTP/1.1 200 OK\r\nContent-Length: 5\r\nContent-Length: 6\r\n\r\nhello")
            reader.rest()
            return
        if path == "/half-a-head":
            s.sendall(b"HTTP/1.1 200 OK\r\nContent-Le")
            return
        if path == "/its-own":
            s.sendall(answer(b"", "502 Bad Gateway"))
            reader.rest()
            return
        if path == "/quotes":
            # A body of which a piece by itself looks like an answer.
            s.sendall(b"HTTP/1.1 200 OK\r\nContent-Length: %d\r\n\r\n" % len(QUOTED))
            time.sleep(0.2)
            s.sendall(QUOTED)
            reader.rest()
            return
        if path == "/part-reset":
            s.sendall(answer(b"x" * 100000)[:5000])
            time.sleep(0.2)
            reset(s)
            return
        if path == "/part-close":
            s.sendall(answer(b"x" * 1000)[:500])
            return
        if path == "/answer-reset":
            s.sendall(answer(b"whole"))
            time.sleep(0.1)
            reset(s)
            return
        if path == "/early-body":
            # Answers a request of which the body has not come, and reads it then.
            s.sendall(answer(b"early"))
            reader.body(fields)
            return
        if path == "/early-unread":
            # Reads nothing of a body but what came with its head. It answers once it may, and a moment later it reads to the end: the
            # gateway closes the connection meanwhile, and what waits there is kept for a second.
            self.may.acquire(timeout=PATIENCE)
            s.sendall(answer(b"early"))
            time.sleep(0.2)
            self.told.put(len(reader.rest()))
            return
        if path == "/early-half":
            # As "/early-unread", but it sends its end behind the answer.
            self.may.acquire(timeout=PATIENCE)
            s.sendall(answer(b"early"))
            s.shutdown(socket.SHUT_WR)
            time.sleep(0.2)
            self.told.put(len(reader.rest()))
            return
        if path == "/early-stays":
            # As "/early-unread", but it reads nothing more, and stays until it is told to go.
            self.may.acquire(timeout=PATIENCE)
            s.sendall(answer(b"early"))
            self.may.acquire(timeout=PATIENCE)
            return
        if path == "/early-counted":
            # Tells that the head came, answers once it may, tells so, and then how much of the body came.
            self.told.put("head")
            self.may.acquire(timeout=PATIENCE)
            s.sendall(answer(b"early"))
            self.told.put("answered")
            self.told.put(len(reader.rest()))
            return
        if path == "/kept":
            # Reads a whole body, of which it keeps nothing, with a rest now and then, tells how much it was, and answers once it may.
            came, rested, piece = len(reader.left), 0, b"-"
            while piece and came < int(fields["content-length"]):
                piece = s.recv(65536)
                came += len(piece)
                if came - rested > 65536:
                    rested = came
                    time.sleep(0.001)
            self.told.put(came)
            self.may.acquire(timeout=PATIENCE)
            s.sendall(answer(b"kept"))
            reader.rest()
            return
        if path == "/early":
            # Answers before the request is whole, stays open, and sends more.
            s.sendall(answer(b"early"))
            try:
                for _ in range(10):
                    s.sendall(b"HTTP/1.1 200 OK\r\nContent-Length: 5\r\n\r\nstray")
                    time.sleep(0.02)
            except OSError:
                pass
            return
        body = reader.body(fields)
        if path == "/slow":
            for byte in answer(b"slow answer"):
                s.sendall(bytes([byte]))
                time.sleep(0.002)
        elif path.endswith("/to-end"):
            s.sendall(b"HTTP/1.0 200 OK\r\n\r\n" + b"until the end" * 1000)
            return
        elif path.endswith("/to-reset"):
            # The same, but what ends it is a reset.
            s.sendall(b"HTTP/1.0 200 OK\r\n\r\n" + b"until the end" * 1000)
            time.sleep(0.2)
            reset(s)
            return
        elif path == "/late":
            time.sleep(0.5)
            s.sendall(answer(b"late"))
        elif path.startswith("/due/first/"):
            # About when its deadline of 40 milliseconds falls due, a little before or behind.
            time.sleep(0.0385 + int(path.split("-")[1]) % 8 * 0.0005)
            s.sendall(answer(path.encode()))
        elif path.startswith("/big/"):
            s.sendall(answer(b"0123456789" * (int(path.split("/")[2]) // 10)))
        elif path == "/echo":
            s.sendall(answer(body))
        else:
            s.sendall(answer(path.encode()))
        reader.rest()


class Gateway:
    """The program, serving at an address."""

    def __init__(self, program, folder, address, server, lines, workers=1, more="", memory=resource.RLIM_INFINITY, port=None, env=None):
        self.begun = program, folder, address, server
        self.lines = lines
        self.opened = 0
        self.guard = threading.Lock()
        self.address = address
        self.port = port or closed_port(address)
        config = os.path.join(folder, "config-%d.toml" % self.port)
        with open(config, "w") as f:
            f.write(
                '[gateway]\nlisten = "%s:%d"\nupstream = "%s:%d"\nworkers = %d\n%s\n[[route]]\npath = "/{*rest}"\n'
                % (address, self.port, *server, workers, more)
            )
        self.words = program + ["serve", config, "--stop-after", str(lines)]

        def bound():
            resource.setrlimit(resource.RLIMIT_AS, (memory, memory))

        self.process = subprocess.Popen(self.words, stdout=subprocess.PIPE, stderr=subprocess.PIPE, cwd=folder, preexec_fn=bound, env=env)

    def another(self, lines, port=None):
        """One more of the same program and server, at this port or one of its own."""
        return Gateway(*self.begun, lines, port=port)

    def connections(self):
        """How many connections the system has of this one's address that are not closed on either side."""
        wanted = "%02X%02X%02X%02X:%04X" % (*reversed([int(it) for it in self.address.split(".")]), self.port)
        with open("/proc/net/tcp") as f:
            return sum(line.split()[1] == wanted and line.split()[3] == "01" for line in f.readlines()[1:])

    def connect(self):
        with self.guard:
            self.opened += 1
        for _ in range(500):
            try:
                s = socket.create_connection((self.address, self.port), PATIENCE)
                s.settimeout(PATIENCE)
                return s
            except ConnectionRefusedError:
                if self.process.poll() is not None:
                    raise AssertionError("the gateway ended: %r" % (self.process.communicate(),))
                time.sleep(0.02)
        raise AssertionError("the gateway does not listen")

    def size(self):
        """How many bytes of addresses it has taken at most."""
        with open("/proc/%d/status" % self.process.pid) as f:
            return next(int(line.split()[1]) * 1024 for line in f if line.startswith("VmPeak"))

    def rss(self):
        with open("/proc/%d/status" % self.process.pid) as f:
            for line in f:
                if line.startswith("VmRSS"):
                    return int(line.split()[1])
        return 0

    def seconds(self):
        """How much processor time it has used."""
        with open("/proc/%d/stat" % self.process.pid) as f:
            fields = f.read().rsplit(")", 1)[1].split()
        return (int(fields[11]) + int(fields[12])) / os.sysconf("SC_CLK_TCK")

    def stop(self):
        """Stops it until it is sent SIGCONT."""
        self.process.send_signal(signal.SIGSTOP)
        os.waitid(os.P_PID, self.process.pid, os.WSTOPPED)

    def descriptors(self):
        return len(os.listdir("/proc/%d/fd" % self.process.pid))

    def allow_one(self):
        """Lets it have one descriptor more than it has."""
        used = {int(name) for name in os.listdir("/proc/%d/fd" % self.process.pid)}
        free = min(set(range(len(used) + 1)) - used)
        _, most = resource.prlimit(self.process.pid, resource.RLIMIT_NOFILE)
        resource.prlimit(self.process.pid, resource.RLIMIT_NOFILE, (free + 1, most))

    def allow_none(self):
        """Lets it have no further descriptor, and answers with what it was allowed."""
        used = {int(name) for name in os.listdir("/proc/%d/fd" % self.process.pid)}
        free = min(set(range(len(used) + 1)) - used)
        before = resource.prlimit(self.process.pid, resource.RLIMIT_NOFILE)
        resource.prlimit(self.process.pid, resource.RLIMIT_NOFILE, (free, before[1]))
        return before

    def frees(self, base, seconds=5.0):
        """Within so many seconds it has no more descriptors than this."""
        until = time.monotonic() + seconds
        while self.descriptors() > base:
            if time.monotonic() > until:
                raise AssertionError("%d descriptors, and %d before" % (self.descriptors(), base))
            time.sleep(0.05)

    def ends_for_memory(self):
        """It stops by itself, with the status and the line of memory that ran out."""
        out, err = self.process.communicate(timeout=PATIENCE)
        if self.process.returncode != 8 or out != b"" or not err.endswith(b"wasmgate: memory\n"):
            raise AssertionError("status %d, output %r, errors %r" % (self.process.returncode, out, err[-500:]))

    def ends(self, wanted=b"", told=None):
        """It stops by itself once all lines have closed, with status 0 and this output, or output of this form, and of what it wrote to standard error this is true."""
        if self.opened != self.lines:
            raise AssertionError("a group opened %d lines and told %d" % (self.opened, self.lines))
        out, err = self.process.communicate(timeout=PATIENCE)
        is_wanted = out == wanted if isinstance(wanted, bytes) else wanted.fullmatch(out) is not None
        if self.process.returncode != 0 or not is_wanted:
            raise AssertionError("status %d, output %r, errors %r" % (self.process.returncode, out, err[-500:]))
        if told is not None and not told(err):
            raise AssertionError("errors %r" % err[-500:])

    def kill(self):
        if self.process.poll() is None:
            self.process.kill()
            self.process.communicate()


def expect(got, wanted):
    if got != wanted:
        raise AssertionError("got %r, wanted %r" % (got[:300] if isinstance(got, bytes) else got, wanted))


def request(path, body=None, extra=""):
    if body is None:
        return ("GET %s HTTP/1.1\r\nHost: a\r\n%s\r\n" % (path, extra)).encode()
    return ("POST %s HTTP/1.1\r\nHost: a\r\nContent-Length: %d\r\n%s\r\n" % (path, len(body), extra)).encode() + body


def status_of(first):
    return first.split(" ")[1]


def get(s, reader, path, wanted):
    """Gets a body, and answers with the fields of its response."""
    s.sendall(request(path))
    first, fields = reader.head()
    expect(status_of(first), "200")
    expect(reader.body(fields), wanted)
    return fields


# ---- the cases; each is given the gateway and the server, and closes its lines


def plain(gateway, upstream):
    """A request goes up with `via`, its response comes down with the time of day, and the line stays."""
    with gateway.connect() as s:
        reader = Reader(s)
        begun = time.time()
        date = get(s, reader, "/plain", b"/plain")["date"]
        moment = calendar.timegm(time.strptime(date, "%a, %d %b %Y %H:%M:%S GMT"))
        # Of its second all is possible, and two seconds are for clocks that are not read at once.
        if not begun - 3 <= moment <= time.time() + 2:
            raise AssertionError("it is %s where the clock tells %f" % (date, begun))
        first, fields = upstream.seen["/plain"]
        expect(first, "GET /plain HTTP/1.1")
        expect(fields.get("via"), "1.1 wasmgate")
        get(s, reader, "/again", b"/again")


def with_body(gateway, upstream):
    """Bodies of a length and chunked ones go up and come down."""
    with gateway.connect() as s:
        reader = Reader(s)
        body = bytes(range(256)) * 1000
        s.sendall(request("/echo", body))
        first, fields = reader.head()
        expect(status_of(first), "200")
        expect(reader.body(fields) == body, True)
        s.sendall(b"POST /echo HTTP/1.1\r\nHost: a\r\nTransfer-Encoding: chunked\r\n\r\n")
        for n in range(1, 50):
            s.sendall(b"%x\r\n%s\r\n" % (n, b"c" * n))
        s.sendall(b"0\r\n\r\n")
        first, fields = reader.head()
        expect(reader.body(fields) == b"c" * (49 * 25), True)


def pipelined(gateway, upstream):
    """A thousand requests in one piece are answered in their order."""
    with gateway.connect() as s:
        reader = Reader(s)
        s.sendall(b"".join(request("/n/%d" % n) for n in range(1000)))
        for n in range(1000):
            first, fields = reader.head()
            expect(status_of(first), "200")
            expect(reader.body(fields), b"/n/%d" % n)


def resets(gateway, upstream):
    """A server that resets before its answer is 502 and the line goes on; one that resets or ends in mid-answer ends the line."""
    with gateway.connect() as s:
        reader = Reader(s)
        s.sendall(request("/reset"))
        first, fields = reader.head()
        expect(status_of(first), "502")
        reader.body(fields)
        get(s, reader, "/after", b"/after")
    for path in ("/part-reset", "/part-close"):
        with gateway.connect() as s:
            reader = Reader(s)
            s.sendall(request(path))
            first, fields = reader.head()
            expect(status_of(first), "200")
            try:
                reader.body(fields)
                raise AssertionError("a whole body came")
            except (EOFError, ConnectionResetError):
                pass


def reset_behind(gateway, upstream):
    """A server that resets behind its whole answer takes nothing from it, and the line goes on."""
    with gateway.connect() as s:
        reader = Reader(s)
        for n in range(3):
            get(s, reader, "/answer-reset", b"whole")
            time.sleep(0.2 * (n % 2))
            get(s, reader, "/behind/%d" % n, b"/behind/%d" % n)


def early_answer(gateway, upstream):
    """An answer that comes before the request is whole goes down at once, and the line is closed behind it."""
    with gateway.connect() as s:
        reader = Reader(s)
        s.sendall(request("/early-body", b"b" * 30000)[:10000])
        first, fields = reader.head()
        expect((status_of(first), fields.get("connection")), ("200", "close"))
        expect(reader.body(fields), b"early")
        expect(reader.rest(), b"")


def queued(port, peer):
    """How many bytes the connection from a port to a peer's has that were sent and not taken, and how many that came and were not read."""
    # The table is read in pieces, and may lack a row while others come and go.
    for _ in range(10):
        with open("/proc/net/tcp") as f:
            for row in f.read().splitlines()[1:]:
                _, here, there, _, queues = row.split()[:5]
                if (int(here.split(":")[1], 16), int(there.split(":")[1], 16)) == (port, peer):
                    return tuple(int(n, 16) for n in queues.split(":"))
        time.sleep(0.05)
    raise AssertionError("no connection from %d to %d" % (port, peer))


def unread_of(gateway, s):
    """How many bytes that were sent on a line the gateway has not read: the same at three looks."""
    port = s.getsockname()[1]
    looks = []
    for _ in range(100):
        looks.append(queued(port, gateway.port)[0] + queued(gateway.port, port)[1])
        if looks[-3:] == looks[-1:] * 3:
            return looks[-1]
        time.sleep(0.1)
    raise AssertionError("it goes on: %r" % looks[-5:])


def filled(gateway, s, path):
    """Sends a body to a server that reads nothing of it until no more of it is read: how much was sent, and how much of that was not read."""
    s.sendall(b"POST %s HTTP/1.1\r\nHost: a\r\nContent-Length: 1000000000\r\n\r\n" % path.encode())
    sent = left = 0
    for _ in range(5):
        s.settimeout(0.5)
        try:
            for _ in range(2000):
                sent += s.send(b"u" * 65536)
        except socket.timeout:
            pass
        s.settimeout(PATIENCE)
        left = unread_of(gateway, s)
        if left > 0:
            break
    expect(left > 0, True)
    return sent, left


def sent_on(gateway, upstream):
    """What waits for a server at the close of its connection is sent on: one that answers an upload early and reads late gets all that was read of it."""
    with gateway.connect() as s:
        # The server reads nothing, so that in the end no more is read of the client: then 65,536 bytes wait in the gateway.
        sent, left = filled(gateway, s, "/early-unread")
        upstream.may.release()
        reader = Reader(s)
        first, fields = reader.head()
        expect((status_of(first), fields.get("connection")), ("200", "close"))
        expect(reader.body(fields), b"early")
        expect(reader.rest(), b"")
        # The connection to the server was closed too.
        came = upstream.told.get(timeout=PATIENCE)
        if not sent - left <= came <= sent:
            raise AssertionError("%d bytes came of %d that were read" % (came, sent - left))


def server_stays(gateway, upstream):
    """A server that has answered an upload early, and neither reads the rest nor closes, keeps a descriptor for a moment alone."""
    with gateway.connect() as beside:
        get(beside, Reader(beside), "/base", b"/base")
        with gateway.connect() as s:
            filled(gateway, s, "/early-stays")
            # Without this client and its server; what lingered of the cases before is gone by now.
            base = gateway.descriptors() - 2
            upstream.may.release()
            reader = Reader(s)
            first, fields = reader.head()
            expect(reader.body(fields), b"early")
            expect(reader.rest(), b"")
        try:
            gateway.frees(base, 3.0)
        finally:
            upstream.may.release()


def client_closes(gateway, upstream):
    """Clients that close in mid-response, with all read that has come and with some of it unread, end their own lines alone."""
    for n in range(10):
        s = gateway.connect()
        s.sendall(request("/big/1000000"))
        s.recv(1000 if n % 2 else 65536)
        s.close()
    with gateway.connect() as s:
        get(s, Reader(s), "/still-there", b"/still-there")


def client_resets(gateway, upstream):
    """Clients that reset in mid-response end their own lines alone."""
    for _ in range(10):
        s = gateway.connect()
        s.sendall(request("/big/1000000"))
        s.recv(1000)
        reset(s)
    with gateway.connect() as s:
        get(s, Reader(s), "/still", b"/still")


def half_closed(gateway, upstream):
    """A client that sends nothing more gets the responses to what it sent, and then the end."""
    with gateway.connect() as s:
        reader = Reader(s)
        s.sendall(request("/late") + request("/second"))
        s.shutdown(socket.SHUT_WR)
        for wanted in (b"late", b"/second"):
            first, fields = reader.head()
            expect(reader.body(fields), wanted)
        expect(reader.rest(), b"")


def byte_by_byte(gateway, upstream):
    """A request and a response of single bytes."""
    with gateway.connect() as s:
        s.setsockopt(socket.IPPROTO_TCP, socket.TCP_NODELAY, 1)
        reader = Reader(s)
        for byte in request("/slow", b"a body"):
            s.sendall(bytes([byte]))
            time.sleep(0.001)
        first, fields = reader.head()
        expect(reader.body(fields), b"slow answer")


def to_the_end(gateway, upstream):
    """A response that goes on until the server's end."""
    with gateway.connect() as s:
        reader = Reader(s)
        s.sendall(request("/to-end"))
        first, fields = reader.head()
        expect(reader.body(fields, to_end=True) == b"until the end" * 1000, True)


def to_a_reset(gateway, upstream):
    """Behind a filter with a callback for bodies a response that goes on until the server's end is whole at that, and not at a reset."""
    with gateway.connect() as s:
        reader = Reader(s)
        s.sendall(request("/shouted/to-end"))
        first, fields = reader.head()
        expect(fields.get("transfer-encoding"), "chunked")
        expect(reader.body(fields) == b"UNTIL THE END" * 1000, True)
    with gateway.connect() as s:
        reader = Reader(s)
        s.sendall(request("/shouted/to-reset"))
        first, fields = reader.head()
        expect((status_of(first), fields.get("transfer-encoding")), ("200", "chunked"))
        try:
            reader.body(fields)
            raise AssertionError("a whole body came")
        except (EOFError, ConnectionResetError):
            pass


def to_a_plain_reset(gateway, upstream):
    """A response that goes on until the server's end, and that the server resets, is reset to the client too, behind what came of it."""
    with gateway.connect() as s:
        reader = Reader(s)
        s.sendall(request("/to-reset"))
        first, fields = reader.head()
        expect((status_of(first), fields.get("transfer-encoding")), ("200", None))
        expect(reader.exactly(13000) == b"until the end" * 1000, True)
        try:
            reader.rest()
            raise AssertionError("it ended as a whole one")
        except ConnectionResetError:
            pass


def malformed(gateway, upstream):
    """A bad request is answered and its line closed, though more than fits still comes."""
    with gateway.connect() as s:
        try:
            s.sendall(b"GET /\x00 HTTP/1.1\r\n\r\n" + b"x" * 300000)
        except OSError:
            pass
        first, fields = Reader(s).head()
        expect(status_of(first), "400")


def hung_up(gateway, upstream):
    """A server that closes the connection in place of an answer: its client is answered 502, and its line goes on."""
    with gateway.connect() as s:
        reader = Reader(s)
        s.sendall(request("/hang-up"))
        first, fields = reader.head()
        expect(status_of(first), "502")
        reader.body(fields)
        get(s, reader, "/next", b"/next")


def bad_responses(gateway, upstream):
    """A response that is malformed, one that ends in its head, and one of 502 are answered 502."""
    for path in ("/nonsense", "/half-a-head", "/its-own"):
        with gateway.connect() as s:
            s.sendall(request(path))
            first, fields = Reader(s).head()
            expect(status_of(first), "502")


def quoted(gateway, upstream):
    """A body that looks like an answer is none."""
    with gateway.connect() as s:
        get(s, Reader(s), "/quotes", QUOTED)


# Connections that stay open until all is over.
KEPT = []


def refused_stays(gateway, upstream):
    """Clients that are answered 400 and stay are let go within a second or two, and though they stay the gateway stops."""
    with gateway.connect() as s:
        get(s, Reader(s), "/base", b"/base")
        base = gateway.descriptors()
        for _ in range(10):
            t = gateway.connect()
            KEPT.append(t)
            t.sendall(b"GET /\x00 HTTP/1.1\r\n\r\n")
            first, fields = Reader(t).head()
            expect(status_of(first), "400")
        gateway.frees(base, 3.0)


def stray(gateway, upstream):
    """Nothing that an early server sends behind its answer reaches the next exchange."""
    with gateway.connect() as s:
        reader = Reader(s)
        s.sendall(request("/early") + request("/next"))
        first, fields = reader.head()
        expect(reader.body(fields), b"early")
        first, fields = reader.head()
        expect(reader.body(fields), b"/next")


def settled(gateway):
    """Its memory once it grows no more: the same, within 256 kB, at five looks, or what it is after fifteen seconds."""
    last, same = gateway.rss(), 0
    for _ in range(75):
        time.sleep(0.2)
        now = gateway.rss()
        same = same + 1 if abs(now - last) <= 256 else 0
        last = now
        if same == 5:
            break
    return last


def stalled(gateway, upstream):
    """A client that does not read keeps nobody else waiting, and the gateway does not keep what it does not take."""
    slow = gateway.connect()
    before = gateway.rss()
    slow.sendall(request("/big/20000000"))
    settled(gateway)
    with gateway.connect() as s:
        reader = Reader(s)
        for n in range(30):
            get(s, reader, "/beside/%d" % n, b"/beside/%d" % n)
    if gateway.rss() - before > 8000:
        raise AssertionError("it grew by %d kB" % (gateway.rss() - before))
    reader = Reader(slow)
    first, fields = reader.head()
    expect(len(reader.body(fields)), 20000000)
    slow.close()


def several_stalled(gateway, upstream):
    """Twelve clients that do not read keep nobody else waiting, whose lines are older, between them and newer, and each gets all once it reads."""
    size = 6000000
    slow, beside = [], []
    for n in range(12):
        if n % 4 == 0:
            beside.append(gateway.connect())
        s = gateway.connect()
        s.sendall(request("/big/%d" % size))
        slow.append(s)
    beside.append(gateway.connect())
    settled(gateway)
    for n in range(20):
        for k, s in enumerate(beside):
            get(s, Reader(s), "/among/%d/%d" % (n, k), b"/among/%d/%d" % (n, k))
    for s in slow[::-1]:
        reader = Reader(s)
        first, fields = reader.head()
        expect(reader.body(fields) == b"0123456789" * (size // 10), True)
        get(s, reader, "/unstalled", b"/unstalled")
    for s in slow + beside:
        s.close()


def descriptors(gateway, upstream):
    """Descriptors come back once lines are closed."""
    with gateway.connect() as s:
        reader = Reader(s)
        get(s, reader, "/base", b"/base")
        base = gateway.descriptors()
        lines = [gateway.connect() for _ in range(20)]
        for n, line in enumerate(lines):
            get(line, Reader(line), "/many/%d" % n, b"/many/%d" % n)
        for line in lines:
            line.close()
        gateway.frees(base)


def refusing(gateway, upstream):
    """Where the server cannot be reached the answer is 502, and the line goes on."""
    with gateway.connect() as s:
        reader = Reader(s)
        for _ in range(3):
            s.sendall(request("/refused"))
            first, fields = reader.head()
            expect(status_of(first), "502")
            reader.body(fields)


def at_once(count, one):
    """Does so many things at once, each by its number; it fails where one fails."""
    failures = []

    def guarded(number):
        try:
            one(number)
        except Exception as e:  # told by the case
            failures.append(e)

    threads = [threading.Thread(target=guarded, args=(n,)) for n in range(count)]
    for t in threads:
        t.start()
    for t in threads:
        t.join(PATIENCE * 3)
    if failures:
        raise AssertionError("%d of %d: %r" % (len(failures), count, failures[0]))


def other_addresses(gateway, upstream):
    """Lines come at the address that is told and at no other, and go to the server at the address that is told."""
    with gateway.connect() as s:
        get(s, Reader(s), "/elsewhere", b"/elsewhere")
    try:
        socket.create_connection(("127.0.0.4", gateway.port), PATIENCE).close()
        raise AssertionError("it listens at another address too")
    except ConnectionRefusedError:
        pass


def many(gateway, upstream):
    """Lines of several workers, at once."""

    def one(number):
        with gateway.connect() as s:
            reader = Reader(s)
            for n in range(20):
                get(s, reader, "/w/%d/%d" % (number, n), b"/w/%d/%d" % (number, n))
            body = b"%d" % number * 10000
            s.sendall(request("/echo", body))
            first, fields = reader.head()
            expect(reader.body(fields) == body, True)

    at_once(30, one)


def by_curl(gateway, upstream):
    """A body goes through curl to the server and back. Without curl the line is opened and closed."""
    curl = shutil.which("curl")
    if curl is None:
        print("live: there is no curl, so its case is skipped", flush=True)
        nothing(gateway, upstream)
        return
    body = b"0123456789" * 10000
    with gateway.guard:
        gateway.opened += 1
    words = [curl, "--silent", "--show-error", "--http1.1", "--noproxy", "*", "--max-time", str(int(PATIENCE))]
    words += ["--header", "Expect:", "--data-binary", "@-", "http://127.0.0.1:%d/echo" % gateway.port]
    ran = subprocess.run(words, input=body, stdout=subprocess.PIPE, stderr=subprocess.PIPE, timeout=2 * PATIENCE)
    expect((ran.returncode, ran.stderr), (0, b""))
    expect(ran.stdout == body, True)


def is_answered(s, path):
    """Whether a request on a line is answered: the line may have been closed at once."""
    try:
        get(s, Reader(s), path, path.encode())
    except (EOFError, ConnectionError):
        return False
    return True


def crowd(gateway, upstream):
    """Of 200 lines that are open at once the first 128 are kept and the others closed, and the descriptors come back."""
    first = gateway.connect()
    expect(is_answered(first, "/crowd"), True)
    base = gateway.descriptors()
    lines = [gateway.connect() for _ in range(199)]
    answered = [is_answered(s, "/crowd/%d" % n) for n, s in enumerate(lines)]
    expect(answered, [True] * 127 + [False] * 72)
    expect(is_answered(first, "/crowd/again"), True)
    for s in lines:
        s.close()
    gateway.frees(base)
    first.close()


def waits_for_places(gateway, upstream):
    """Lines that come while all places of a worker are taken wait, and are answered once others close, in their order."""
    held = [gateway.connect() for _ in range(128)]
    for s in held:
        s.sendall(UNROUTED)
        is_unrouted(s)
    waiting = [gateway.connect() for _ in range(20)]
    for s in waiting:
        s.sendall(UNROUTED)
    # Less than they would wait at most.
    expect(select.select(waiting, [], [], 0.3)[0], [])
    for s in held[:20]:
        s.close()
    for s in waiting:
        is_unrouted(s)
    for s in held[20:] + waiting:
        s.close()


def other_places(gateway, upstream):
    """While all places of the first of two workers are taken, lines go to the other one, which has some, and each is answered."""
    held = [gateway.connect() for _ in range(256)]
    for s in held:
        s.sendall(UNROUTED)
        is_unrouted(s)
    # Lines go to the workers in turn: the second one has none left.
    for s in held[1::2]:
        s.close()
    begun = time.monotonic()
    lines = [gateway.connect() for _ in range(40)]
    for s in lines:
        s.sendall(UNROUTED)
        is_unrouted(s)
    took = time.monotonic() - begun
    if took > 5:
        raise AssertionError("it took %f seconds" % took)
    for s in held[::2] + lines:
        s.close()


FLOOD = 200  # lines that come at once
ARRIVALS = 32  # so many are accepted before open lines are heard


def is_told(s, of=select.POLLIN):
    """Something comes on a line: bytes, or that it is closed."""
    look = select.poll()
    look.register(s, of)
    expect(len(look.poll(PATIENCE * 1000)), 1)


def order_of_answers(gateway, lines):
    """The descriptors of lines in the order in which each was answered or closed by the gateway, which is stopped and goes on then."""
    # A level-triggered epoll that is asked once tells of them in the order in which they became ready.
    with select.epoll() as ready:
        for s in lines:
            ready.register(s, select.EPOLLIN)
        gateway.process.send_signal(signal.SIGCONT)
        for s in lines:
            is_told(s)
        return [fd for fd, _ in ready.poll(0, len(lines))]


def flooded(gateway, upstream):
    """Of lines that come at once with a request on an open line few are accepted, and closed, before the request is answered."""
    with gateway.connect() as first:
        reader = Reader(first)
        get(first, reader, "/first", b"/first")
        others = [gateway.connect() for _ in range(127)]
        for n, s in enumerate(others):
            get(s, Reader(s), "/other/%d" % n, b"/other/%d" % n)
        # Once it goes on all has come: the lines, and the request, which is answered without the server.
        gateway.stop()
        lines = [gateway.connect() for _ in range(FLOOD)]
        first.sendall(b"OPTIONS * HTTP/1.1\r\nHost:\r\n\r\n")
        order = order_of_answers(gateway, [first] + lines)
        expect(len(order), FLOOD + 1)
        before = order.index(first.fileno())
        if before > 2 * ARRIVALS:
            raise AssertionError("%d of %d lines were closed before the answer" % (before, FLOOD))
        _, fields = reader.head()
        reader.body(fields)
        for s in lines:
            expect(s.recv(1), b"")
            s.close()
        get(first, reader, "/again", b"/again")
        for s in others:
            s.close()


def remembers_nothing(gateway, upstream):
    """Its memory grows no more with further lines and bodies, once there were as many."""
    body = b"x" * 50000
    sizes = []
    for turn in range(3):
        lines = [gateway.connect() for _ in range(15)]
        for n, s in enumerate(lines):
            get(s, Reader(s), "/held/%d/%d" % (turn, n), b"/held/%d/%d" % (turn, n))
        for s in lines:
            s.sendall(request("/echo", body))
            reader = Reader(s)
            first, fields = reader.head()
            expect(reader.body(fields) == body, True)
            s.close()
        sizes.append(settled(gateway))
    if sizes[-1] - sizes[1] > 1024:
        raise AssertionError("kB behind each turn: %r" % sizes)


def metered(gateway, upstream):
    """Requests on three lines, which two workers share, are counted in one metric, and each is told how many there were by then."""
    seen = 0
    for line, count in ((0, 3), (1, 2), (2, 1)):
        with gateway.connect() as s:
            reader = Reader(s)
            for n in range(count):
                seen += 1
                fields = get(s, reader, "/metered/%d/%d" % (line, n), b"/metered/%d/%d" % (line, n))
                expect(fields["x-requests"], str(seen))
            get(s, reader, "/not/metered", b"/not/metered")


def noticed(gateway, upstream):
    """A worker to which nothing else happens is told of an item that another one put into its queue."""
    with gateway.connect() as s:
        reader = Reader(s)
        get(s, reader, "/b", b"/b")
        with gateway.connect() as t:
            # (Its worker starts its VMs at this, and so is the one that registered the queue last.)
            t.sendall(request("/a"))
            expect(select.select([t], [], [], 0.3)[0], [])
            # (Until then the first one is told. On a slow machine that may take more than one item.)
            for _ in range(20):
                get(s, reader, "/b", b"/b")
                if select.select([t], [], [], 1)[0]:
                    break
            waiting = Reader(t)
            first, fields = waiting.head()
            expect((status_of(first), waiting.body(fields)), ("200", b"/a"))


def deadline(gateway, upstream):
    """A server that says nothing is answered for at the deadline, though nothing else happens, and the line goes on."""
    with gateway.connect() as s:
        reader = Reader(s)
        begun = time.monotonic()
        s.sendall(request("/silent"))
        first, fields = reader.head()
        took = time.monotonic() - begun
        expect((status_of(first), reader.body(fields)), ("504", b""))
        expect(0.3 <= took < 5, True)
        get(s, reader, "/behind", b"/behind")


def due_response(gateway, upstream):
    """A response that comes as its deadline falls due is never taken for that of the next request, which the line sent with the first."""

    def some(number):
        for n in range(40):
            mark = "%d-%d" % (number, n)
            with gateway.connect() as s:
                reader = Reader(s)
                s.sendall(request("/due/first/" + mark) + request("/due/second/" + mark))
                for path in ("/due/first/", "/due/second/"):
                    first, fields = reader.head()
                    got = (status_of(first), reader.body(fields))
                    if got != ("504", b""):
                        expect(got, ("200", (path + mark).encode()))

    at_once(6, some)


def short_lines(gateway, upstream):
    """Six hundred lines, one request each, twenty at once: more than a queue between workers holds, each is answered."""

    def some(number):
        for n in range(30):
            with gateway.connect() as s:
                get(s, Reader(s), "/s/%d/%d" % (number, n), b"/s/%d/%d" % (number, n))

    at_once(20, some)


# The random bytes that filters had in all groups.
RANDOM = []


def draw(gateway):
    """Draws random bytes twice on a line of its own, each time others than ever before."""
    with gateway.connect() as s:
        reader = Reader(s)
        for _ in range(2):
            s.sendall(request("/told/r"))
            first, fields = reader.head()
            expect(status_of(first), "200")
            RANDOM.append(reader.body(fields))
            expect(len(RANDOM[-1]), 32)
            expect(len(set(RANDOM)), len(RANDOM))


def random_bytes(gateway, upstream):
    """A filter's random bytes are others each time and in each process."""
    draw(gateway)


def random_by_workers(gateway, upstream):
    """They are others in each of eight workers, which a line each goes to."""
    for _ in range(8):
        draw(gateway)


def logged(gateway, upstream):
    """What a filter logs, and that it died, is written to standard error; behind its death its requests are answered 503."""
    with gateway.connect() as s:
        reader = Reader(s)
        get(s, reader, "/told/l", b"/told/l")
        for path in ("/told/d", "/told/l"):
            s.sendall(request(path))
            first, fields = reader.head()
            expect((status_of(first), reader.body(fields)), ("503", b""))
        get(s, reader, "/beside", b"/beside")


LOGGED = b"warn a line with \\x01 and \\xff\ncritical vm teller died: unreachable\n"


def some_memory(gateway, upstream):
    """Where memory suffices for one of two workers, either the other one gets no line and each is answered, or the gateway ends, with all lines that wait, since no worker
    accepts."""
    try:
        for _ in range(6):
            with gateway.connect() as s:
                s.sendall(UNROUTED)
                is_unrouted(s)
    except (EOFError, ConnectionError):
        gateway.process.wait(PATIENCE)


def unread_log(gateway, upstream):
    """Where nobody reads what is written to standard error, lines of the log are lost, and requests are answered all the same."""
    with gateway.connect() as s:
        reader = Reader(s)
        # So many lines take more than the 65,536 bytes that a pipe has.
        for _ in range(5):
            s.sendall(request("/told/l") * 500)
            for _ in range(500):
                first, fields = reader.head()
                expect((status_of(first), reader.body(fields)), ("200", b"/told/l"))


def quiet(gateway, upstream):
    """Ticks come though nothing else happens."""
    with gateway.connect() as s:
        get(s, Reader(s), "/told/", b"/told/")
        time.sleep(1)


def late_ticks(gateway, upstream):
    """Ticks that take longer than their period keep nobody from being heard: requests on two lines, and a third line that comes later, are answered."""
    with gateway.connect() as s, gateway.connect() as t:
        for n in range(3):
            get(s, Reader(s), "/told/%d/" % n, b"/told/%d/" % n)
            get(t, Reader(t), "/beside/%d" % n, b"/beside/%d" % n)
        with gateway.connect() as u:
            get(u, Reader(u), "/later", b"/later")


def has_ticked(err):
    """Three ticks of those ten that a second has at a period of 100 milliseconds, and nothing else."""
    return err.count(b"info a tick\n") >= 3 and err.replace(b"info a tick\n", b"") == b""


def unread(gateway, upstream):
    """Clients that read nothing of lines which the gateway has closed take no descriptors without end, and give back what they took."""
    with gateway.connect() as s:
        get(s, Reader(s), "/base", b"/base")
    base = gateway.descriptors()
    # A request that waits for the server, and behind it as many as may be unread that are answered without it, the last of which closes the line.
    burst = request("/late") + b"OPTIONS * HTTP/1.1\nHost:\n\n" * 2800 + b"OPTIONS * HTTP/1.1\nHost:\nConnection: close\n\n"
    lines = []
    for turn in range(4):
        for _ in range(90):
            s = socket.socket()
            s.setsockopt(socket.SOL_SOCKET, socket.SO_RCVBUF, 2048)
            # By small segments the system takes little of what is not read: on loopback it would take millions of bytes.
            s.setsockopt(socket.IPPROTO_TCP, socket.TCP_MAXSEG, 536)
            s.settimeout(PATIENCE)
            with gateway.guard:
                gateway.opened += 1
            s.connect(("127.0.0.1", gateway.port))
            try:
                s.sendall(burst)
            except OSError:
                pass  # closed at once
            lines.append(s)
        # By what comes first on a line its requests were answered, and it is closed or about to be: so few are open when the next come.
        for s in lines[90 * turn :]:
            is_told(s)
    for _ in range(100):
        if base + 200 < gateway.descriptors() < base + 300:
            break
        time.sleep(0.1)
    else:
        raise AssertionError("%d descriptors before, %d with 360 lines" % (base, gateway.descriptors()))
    with gateway.connect() as s:
        expect(is_answered(s, "/no/room"), False)
    for s in lines:
        reset(s)
    gateway.frees(base)
    with gateway.connect() as s:
        get(s, Reader(s), "/room", b"/room")


# What is answered 404 without the server.
UNROUTED = b"OPTIONS * HTTP/1.1\r\nHost:\r\n\r\n"


def is_unrouted(s):
    """The next answer on a line is 404."""
    first, fields = Reader(s).head()
    expect((status_of(first), fields.get("content-length")), ("404", "0"))


def is_quiet(gateway):
    """Within some looks of half a second there is one in which it uses hardly any processor time."""
    looks = []
    for _ in range(10):
        before = gateway.seconds()
        time.sleep(0.5)
        looks.append(gateway.seconds() - before)
        if looks[-1] <= 0.02:
            return
    raise AssertionError("it never rests: %r seconds in half ones" % looks)


def no_descriptor(gateway, upstream):
    """Where the descriptors ran out a line that waits comes once another that was answered 400 is gone, by its client's close or a second later."""
    with gateway.connect() as first:
        first.sendall(UNROUTED)
        is_unrouted(first)
        base = gateway.descriptors()
        gateway.allow_one()
        for stays in (True, False):
            last, waits = gateway.connect(), gateway.connect()
            last.sendall(UNROUTED)
            is_unrouted(last)
            waits.sendall(UNROUTED)
            # It asks again now and then, and not without pause.
            is_quiet(gateway)
            expect(select.select([waits], [], [], 0)[0], [])
            last.sendall(b"GET /\x00 HTTP/1.1\r\n\r\n")
            expect(status_of(Reader(last).head()[0]), "400")
            if stays:
                KEPT.append(last)
            else:
                last.close()
            waits.settimeout(5)
            is_unrouted(waits)
            waits.close()
            gateway.frees(base)


def rests(gateway, upstream):
    """Where nothing happens no worker is busy: with lines to come and none to come, silent, waiting, half closed, read no further and not reading ones."""
    lines = [gateway.connect() for _ in range(10)]
    for s in lines[2:]:
        s.sendall(UNROUTED)
        is_unrouted(s)
    # Of each kind one at each of the two workers.
    for s in lines[2:4]:
        s.sendall(request("/silent"))
    for s in lines[4:6]:
        s.sendall(request("/silent"))
        s.shutdown(socket.SHUT_WR)
    for s in lines[6:8]:
        s.sendall(request("/silent") + UNROUTED * 10000)
    for s in lines[8:]:
        s.sendall(request("/big/20000000"))
    is_quiet(gateway)
    # The last line that is to come.
    lines.append(gateway.connect())
    is_quiet(gateway)
    # (A client that is half closed and only closes now would not be missed while its answer waits.)
    for s in lines:
        reset(s)


def undialled(gateway, upstream):
    """Where no descriptor is left for a connection to the server the answer is 502, and once there is one the line goes on."""
    with gateway.connect() as s:
        s.sendall(UNROUTED)
        is_unrouted(s)
        reader = Reader(s)
        before = gateway.allow_none()
        for _ in range(2):
            s.sendall(request("/undialled"))
            first, fields = reader.head()
            expect((status_of(first), reader.body(fields)), ("502", b""))
        resource.prlimit(gateway.process.pid, resource.RLIMIT_NOFILE, before)
        get(s, reader, "/dialled", b"/dialled")


def more_than_is_read(gateway, upstream):
    """A client that sends more than is read before its line is closed, and reads when that is over, gets its whole answer and then the end."""
    with gateway.connect() as s:
        s.sendall(request("/big/800000", extra="Connection: close\r\n") + b"y" * 300000)
        # All of the answer fits in what the system keeps, so that the line is closed before any of it is read, and let go a second later.
        time.sleep(1.4)
        reader = Reader(s)
        first, fields = reader.head()
        expect((status_of(first), fields.get("connection")), ("200", "close"))
        expect(reader.body(fields) == b"0123456789" * 80000, True)
        expect(reader.rest(), b"")


def goes_on_sending(gateway, upstream):
    """A client that goes on sending for some seconds behind the answer with which its line was closed is not reset, and reads it; it is let go once it is silent."""
    with gateway.connect() as s:
        s.sendall(b"GET /\x00 HTTP/1.1\r\n\r\n")
        for _ in range(15):
            time.sleep(0.2)
            s.sendall(b"y" * 1000)
        base = gateway.descriptors()   # the line is there: a busy machine may not have accepted it sooner
        reader = Reader(s)
        first, fields = reader.head()
        expect((status_of(first), reader.body(fields)), ("400", b""))
        expect(reader.rest(), b"")
        gateway.frees(base - 1, 5.0)


def closes_at_once(gateway, upstream):
    """The end of a line that is closed comes right behind its answer."""
    took = []
    for n in range(5):
        with gateway.connect() as s:
            reader = Reader(s)
            s.sendall(request("/last/%d" % n, extra="Connection: close\r\n"))
            first, fields = reader.head()
            expect(reader.body(fields), b"/last/%d" % n)
            begun = time.monotonic()
            expect(reader.rest(), b"")
            took.append(time.monotonic() - begun)
    # A lingering connection is over after a second.
    if min(took) > 0.7:
        raise AssertionError("seconds between answers and ends: %r" % took)


def in_turn(gateway, upstream):
    """Lines are heard in turn: an older and a newer line that sent much are not heard to their ends before one that sent one request."""
    lines = [gateway.connect() for _ in range(3)]
    for s in lines:
        s.sendall(UNROUTED)
        is_unrouted(s)
    older, between, newer = lines
    # Eight requests of 8 kB, which come in four pieces or more, and behind the last of which the line is closed.
    much = b"OPTIONS * HTTP/1.1\r\nHost:\r\nX: %s\r\n" % (b"x" * 8000)
    gateway.stop()
    for s in (older, newer):
        s.sendall((much + b"\r\n") * 7 + much + b"Connection: close\r\n\r\n")
    between.sendall(UNROUTED)
    with select.epoll() as ready:
        # As in `order_of_answers`: of two lines the end, of the third its answer.
        for s in (older, newer):
            ready.register(s, select.EPOLLRDHUP)
        ready.register(between, select.EPOLLIN)
        gateway.process.send_signal(signal.SIGCONT)
        for s in (older, newer):
            is_told(s, select.POLLRDHUP)
        is_told(between)
        order = [fd for fd, _ in ready.poll(0, 3)]
    expect(len(order), 3)
    expect(order[0], between.fileno())
    is_unrouted(between)
    for s in (older, newer):
        expect(Reader(s).rest().count(b"HTTP/1.1 404"), 8)
    for s in lines:
        s.close()


def both_sides_in_turn(gateway, upstream):
    """A client that goes on sending does not keep the server's early answer from being heard: two pieces of a body go up at most."""
    with gateway.connect() as s:
        s.sendall(b"POST /early-counted HTTP/1.1\r\nHost: a\r\nContent-Length: 1000000000\r\n\r\n")
        expect(upstream.told.get(timeout=PATIENCE), "head")
        gateway.stop()
        s.sendall(b"u" * 200000)
        upstream.may.release()
        expect(upstream.told.get(timeout=PATIENCE), "answered")
        gateway.process.send_signal(signal.SIGCONT)
        reader = Reader(s)
        first, fields = reader.head()
        expect((status_of(first), fields.get("connection")), ("200", "close"))
        expect(reader.body(fields), b"early")
        came = upstream.told.get(timeout=PATIENCE)
        if came > 2 * 16384:
            raise AssertionError("%d bytes went up before the answer was heard" % came)


def sent_on_of_two(gateway, upstream):
    """What waits for two servers whose connections are closed at once is sent on to both, also where one sent its end behind its answer."""
    paths = ("/early-unread", "/early-half")
    lines = [gateway.connect() for _ in paths]
    sizes = [(0, 0)] * len(paths)

    def one(n):
        sizes[n] = filled(gateway, lines[n], paths[n])

    at_once(len(paths), one)
    for _ in paths:
        upstream.may.release()
    for s in lines:
        reader = Reader(s)
        first, fields = reader.head()
        expect((status_of(first), fields.get("connection")), ("200", "close"))
        expect(reader.body(fields), b"early")
        expect(reader.rest(), b"")
        s.close()
    came = sum(upstream.told.get(timeout=PATIENCE) for _ in paths)
    read, sent = sum(sent - left for sent, left in sizes), sum(sent for sent, _ in sizes)
    if not read <= came <= sent:
        raise AssertionError("%d bytes came of %d that were read" % (came, read))


def few_linger(gateway, upstream):
    """Of clients that are answered 400 and stay at most 256 are kept at once."""
    with gateway.connect() as s:
        s.sendall(UNROUTED)
        is_unrouted(s)
        base = gateway.descriptors()
        lines = []
        for _ in range(350):
            t = gateway.connect()
            lines.append(t)
            t.sendall(b"GET /\x00 HTTP/1.1\r\n\r\n")
            is_told(t)
        # Some more may be open for a moment.
        kept = gateway.descriptors() - base
        if kept > 260:
            raise AssertionError("%d descriptors" % kept)
        for t in lines:
            t.close()


# Pieces of 16 kB of an upload, for each of which a filter takes some milliseconds.
PIECES = 192


def beside_work(gateway, upstream):
    """While a filter works on an upload, piece by piece, requests on another line are answered between the pieces, one after the other."""
    with gateway.connect() as busy, gateway.connect() as beside:
        beside.sendall(UNROUTED)
        is_unrouted(beside)
        answer = []

        def upload():
            busy.sendall(request("/busy/upload", b"u" * (PIECES * 16384)))
            first, fields = Reader(busy).head()
            answer.append(status_of(first))

        sender = threading.Thread(target=upload)
        sender.start()
        count = 0
        while sender.is_alive():
            beside.sendall(UNROUTED)
            is_unrouted(beside)
            count += 1
        sender.join()
        expect(answer, ["200"])
        # Where all pieces that have come are heard before the system is asked again, there is one for each five or so.
        if count < PIECES // 2:
            raise AssertionError("%d answers beside an upload of %d pieces" % (count, PIECES))


def slow_server(gateway, upstream):
    """An upload to a server that takes less than comes takes no memory for what has gone up: some five million of 48 wait in the gateway for a while, a few at a time."""
    size = 48000000
    with gateway.connect() as s:
        reader = Reader(s)
        get(s, reader, "/before", b"/before")
        before = gateway.rss()
        s.sendall(request("/kept", b"k" * size))
        expect(upstream.told.get(timeout=PATIENCE), size)
        grew = gateway.rss() - before
        upstream.may.release()
        first, fields = reader.head()
        expect(reader.body(fields), b"kept")
        if grew > 2000:
            raise AssertionError("it grew by %d kB" % grew)


def silent_lines(gateway, upstream):
    """Of a hundred lines that come at once to two workers each is answered, the last ones first, while the others are silent."""
    first = gateway.connect()
    first.sendall(UNROUTED)
    is_unrouted(first)
    gateway.stop()
    lines = [gateway.connect() for _ in range(100)]
    gateway.process.send_signal(signal.SIGCONT)
    for s in lines[::-1]:
        s.sendall(UNROUTED)
        is_unrouted(s)
    for s in [first] + lines:
        s.close()


def two_deadlines(gateway, upstream):
    """The deadline of a request is counted from when it came, also where another line's falls due before."""
    with gateway.connect() as s, gateway.connect() as t:
        s.sendall(request("/silent"))
        time.sleep(1.7)
        # It is answered half a second later: 0.2 seconds behind the deadline of the first, and 1.5 in front of its own.
        get(t, Reader(t), "/late", b"late")
        first, fields = Reader(s).head()
        expect(status_of(first), "504")


def address_taken(gateway, upstream):
    """A second gateway at the same address ends at once, with the status and the line of sockets that failed."""
    with gateway.connect() as s:
        get(s, Reader(s), "/taken", b"/taken")
        ran = subprocess.run(gateway.words, stdout=subprocess.PIPE, stderr=subprocess.PIPE, timeout=PATIENCE)
        expect((ran.returncode, ran.stdout, ran.stderr), (6, b"", b"wasmgate: site\n"))


def preloaded(folder, name, **more):
    """The environment of a program that has a file of this folder in C in front of the C library, or nothing where no `cc` builds it."""
    library = os.path.join(folder, name + ".so")
    words = ["cc", "-O1", "-shared", "-fPIC", "-o", library, os.path.join(HERE, name + ".c")]
    if not shutil.which("cc") or subprocess.run(words, stderr=subprocess.DEVNULL).returncode != 0:
        return None
    return dict(os.environ, LD_PRELOAD=library, **more)


def begins_late(gateway, upstream):
    """Where the system makes no thread for the second of two workers, the first has all lines, and tells of the other after ten seconds."""
    for n in range(3):
        time.sleep(11.5 if n == 2 else 0)
        with gateway.connect() as s:
            get(s, Reader(s), "/%d" % n, b"/%d" % n)


class Clock:
    """A clock of the day for a gateway, which steps: steps.c."""

    def __init__(self, folder):
        self.file = os.path.join(folder, "steps")
        self.step(0)
        self.env = preloaded(folder, "steps", CLOCK_STEPS=self.file)

    def step(self, seconds):
        """From now on it is off by so many seconds."""
        with open(self.file, "r+b" if os.path.exists(self.file) else "wb") as f:
            f.write(struct.pack("=q", seconds))


def dated(gateway):
    """The date of an answer of the gateway's own, in seconds since 1970."""
    with gateway.connect() as s:
        s.sendall(UNROUTED)
        first, fields = Reader(s).head()
        expect(status_of(first), "404")
        return calendar.timegm(time.strptime(fields["date"], "%a, %d %b %Y %H:%M:%S GMT"))


def clock_steps(gateway, upstream):
    """Where the clock of the day steps forward by half an hour, or back by two, an exchange under way is answered in time, and dates go on with at most twice the time that
    passes, and never back. A step forward by more than an hour is taken at once."""
    begun, first = time.monotonic(), dated(gateway)
    expect(abs(first - time.time()) <= 2, True)
    last = first
    for off in (1800, -5400):
        with gateway.connect() as s:
            s.sendall(request("/late"))
            time.sleep(0.2)
            gateway.clock.step(off)
            head, fields = Reader(s).head()
            expect(status_of(head), "200")
        for _ in range(2):
            date = dated(gateway)
            expect(last <= date <= first + 2 * (time.monotonic() - begun) + 2, True)
            last = date
    gateway.clock.step(7200)
    expect(abs(dated(gateway) - time.time() - 7200) <= 3, True)


class Front:
    """A proxy in front: each new connection goes to the port that it has then."""

    def __init__(self, port):
        self.port = port
        self.listener = socket.create_server(("127.0.0.1", 0), backlog=128)
        self.address = self.listener.getsockname()
        threading.Thread(target=self.accept, daemon=True).start()

    def accept(self):
        while True:
            try:
                s, _ = self.listener.accept()
            except OSError:
                return
            t = socket.create_connection(("127.0.0.1", self.port), PATIENCE)
            for a, b in ((s, t), (t, s)):
                threading.Thread(target=self.pass_on, args=(a, b), daemon=True).start()

    def pass_on(self, a, b):
        try:
            while piece := a.recv(65536):
                b.sendall(piece)
            b.shutdown(socket.SHUT_WR)
        except OSError:
            pass


def is_listening(gateway):
    gateway.connect().close()


def restarted_behind_a_proxy(gateway, upstream):
    """As OPERATIONS says: the new process at another port, new connections there, and the old one ended once it has none. Each of the clients that go on meanwhile gets each
    answer, also one whose exchange was under way."""
    is_listening(gateway)
    old, new = gateway.another(100000), gateway.another(100000)
    front, ends, answered, faults = Front(old.port), threading.Event(), [0, 0], []

    def asks(n):
        # Every other client keeps its connection until the switch.
        count = 0
        try:
            while not ends.is_set():
                with socket.create_connection(front.address, PATIENCE) as s:
                    s.settimeout(PATIENCE)
                    reader, port = Reader(s), front.port
                    while True:
                        path = "/late" if count % 50 == 49 else "/restart/%d/%d" % (n, count)
                        get(s, reader, path, b"late" if path == "/late" else path.encode())
                        count += 1
                        answered[front.port == new.port] += 1
                        if n % 2 == 0 or ends.is_set() or port != front.port:
                            break
        except Exception as e:
            faults.append(repr(e))

    try:
        is_listening(old)
        clients = [threading.Thread(target=asks, args=(n,), daemon=True) for n in range(8)]
        for client in clients:
            client.start()
        time.sleep(1)
        is_listening(new)
        front.port = new.port
        until = time.monotonic() + PATIENCE
        while old.connections() > 0:
            if time.monotonic() > until:
                raise AssertionError("the old process has connections still")
            time.sleep(0.02)
        old.process.terminate()
        old.process.communicate(timeout=PATIENCE)
        time.sleep(1)
        ends.set()
        for client in clients:
            client.join(PATIENCE)
        expect(faults, [])
        expect(min(answered) > 20, True)
    finally:
        ends.set()
        front.listener.close()
        old.kill()
        new.kill()


def restarted_in_place(gateway, upstream):
    """A process at the address of one that was ended with its connections open listens at once. Until then connections are refused, and none waits for ever."""
    is_listening(gateway)
    old = gateway.another(100000)
    try:
        for n in range(3):
            s = old.connect()
            get(s, Reader(s), "/%d" % n, b"/%d" % n)
            KEPT.append(s)
            old.process.terminate()
            old.process.communicate(timeout=PATIENCE)
            old = gateway.another(100000, old.port)
            with old.connect() as s:
                get(s, Reader(s), "/after/%d" % n, b"/after/%d" % n)
    finally:
        old.kill()


def nothing(gateway, upstream):
    """A line that is opened and closed."""
    gateway.connect().close()


def operated(gateway, upstream):
    """Exchanges on two workers' lines are logged, an operator's routes are answered without the server, and the counts are those of both workers,
    in which such an answer comes in once it is given."""
    with gateway.connect() as s, gateway.connect() as t:
        for line, path in ((s, "/first"), (t, "/second")):
            get(line, Reader(line), path, path.encode())
        for line, count in ((s, 2), (t, 3)):
            reader = Reader(line)
            get(line, reader, "/healthz", b"ok\n")
            line.sendall(request("/metrics"))
            first, fields = reader.head()
            expect((status_of(first), fields["content-type"]), ("200", "text/plain; version=0.0.4"))
            counts = reader.body(fields).decode().split("\n")
            expect([row for row in counts if "2xx" in row], ['wasmgate_responses_total{class="2xx"} %d' % count])
        expect([path for path in ("/healthz", "/metrics") if path in upstream.seen], [])


# Two lines of the log, of which the times differ.
OPERATED = re.compile(rb"info GET /first 200 6 [0-9]+\ninfo GET /second 200 7 [0-9]+\n")


# A module of a memory and an ABI marker: `proxy_abi_version_0_2_1` is its one function, which does nothing.
MARKED = (
    b"\0asm\1\0\0\0"
    b"\1\4\1\x60\0\0"
    b"\3\2\1\0"
    b"\5\3\1\0\1"
    b"\7\x24\2"
    b"\6memory\2\0"
    b"\x17proxy_abi_version_0_2_1\0\0"
    b"\x0a\4\1\2\0\x0b"
)

WITH_STORES = (
    '[[vm]]\nname = "first"\nmodule = "marked.wasm"\n'
    '[[vm]]\nname = "second"\nmodule = "marked.wasm"\n'
)

# Eight VMs with a memory of 16 MiB each.
LARGE = MARKED.replace(b"\5\3\1\0\1", b"\5\4\1\0\x80\2")
WITH_LARGE_VMS = "".join('[[vm]]\nname = "large%d"\nmodule = "large.wasm"\npages = 256\n' % n for n in range(8))
# What they take for one worker, and half as much again.
LARGE_ROOM = 8 * 16777216 * 3 // 2

WITH_A_METER = (
    '[[vm]]\nname = "meter"\nmodule = "meter.wasm"\n'
    '[[plugin]]\nname = "meter"\nvm = "meter"\n'
    '[[route]]\npath = "/metered/{*rest}"\nfilters = ["meter"]\n'
)

WITH_A_QUEUE = (
    '[[vm]]\nname = "m1"\nmodule = "waits_for_notice.wasm"\n[[vm]]\nname = "m2"\nmodule = "enqueues_path.wasm"\n'
    '[[plugin]]\nname = "m1"\nvm = "m1"\n[[plugin]]\nname = "m2"\nvm = "m2"\n'
    '[[route]]\npath = "/a"\nfilters = ["m1"]\n[[route]]\npath = "/b"\nfilters = ["m2"]\n'
)
# (How often notices were asked for depends on the time that it took.)
AFTER_A_QUEUE = re.compile(rb"store m1 calls [0-9]+ keys 0 items 0\nstore m2 calls [0-9]+ keys 0 items 0\n")

WITH_SHOUT = (
    '[[vm]]\nname = "shout"\nmodule = "shout.wasm"\n'
    '[[plugin]]\nname = "shout"\nvm = "shout"\n'
    '[[route]]\npath = "/shouted/{*rest}"\nfilters = ["shout"]\n'
)

WITH_AN_OPERATOR = "".join('[[vm]]\nname = "%s"\nmodule = "%s.wasm"\n' % (name, name) for name in ("exchange_log", "healthz", "metrics"))
WITH_AN_OPERATOR += "".join('[[plugin]]\nname = "%s"\nvm = "%s"\n' % (name, name) for name in ("exchange_log", "healthz", "metrics"))
WITH_AN_OPERATOR += '[[route]]\npath = "/healthz"\nfilters = ["healthz"]\n[[route]]\npath = "/metrics"\nfilters = ["metrics"]\n'
WITH_AN_OPERATOR += '[[route]]\npath = "/first"\nfilters = ["exchange_log", "metrics"]\n[[route]]\npath = "/second"\nfilters = ["exchange_log", "metrics"]\n'
AFTER_AN_OPERATOR = re.compile(
    rb"(store [a-z_]+ calls 0 keys 0 items 0\n){3}"
    rb"metric metrics counter 726573706f6e7365735f317878 0\nmetric metrics counter 726573706f6e7365735f327878 [0-9]+\n(metric metrics counter 726573706f6e7365735f3[345]7878 0\n){3}"
)

WITH_A_BUSY_FILTER = (
    '[[vm]]\nname = "busy"\nmodule = "busy.wasm"\n'
    '[[plugin]]\nname = "busy"\nvm = "busy"\n'
    '[[route]]\npath = "/busy/{*rest}"\nfilters = ["busy"]\n'
)

WITH_A_TELLER = (
    '[[vm]]\nname = "teller"\nmodule = "teller.wasm"\n'
    '[[plugin]]\nname = "teller"\nvm = "teller"\n%s'
    '[[route]]\npath = "/told/{*rest}"\nfilters = ["teller"]\n[[route]]\npath = "/told/"\nfilters = ["teller"]\n'
)
TOLD = b"store teller calls 0 keys 0 items 0\n"



WITH_A_CALLER = (
    '[[vm]]\nname = "caller"\nmodule = "caller.wasm"\n'
    '[[plugin]]\nname = "caller"\nvm = "caller"\n'
    '[[route]]\npath = "/call/{*rest}"\nfilters = ["caller"]\n'
)


def calls_out(gateway, path, wanted, status="200"):
    """A request that is answered by what came of its callout."""
    with gateway.connect() as s:
        s.sendall(request("/call" + path))
        reader = Reader(s)
        first, fields = reader.head()
        expect((status_of(first), reader.body(fields)), (status, wanted))


def called_out(gateway, upstream):
    """Callouts are answered, by the server's answer to each: a short one, a long one, one that comes byte by byte, one that ends with its connection, and
    one that came whole before a reset. The server gets what the callout says, and its own line for each."""
    with gateway.connect() as s:
        # Once a line is answered the gateway has all descriptors that it keeps. A process that has just begun has fewer.
        s.sendall(UNROUTED)
        is_unrouted(s)
        base = gateway.descriptors()
        calls_out(gateway, "/called", b"/called")
        expect(upstream.seen["/called"][1]["host"], "a")
        calls_out(gateway, "/big/200000", b"0123456789" * 20000)
        calls_out(gateway, "/slow", b"slow answer")
        calls_out(gateway, "/to-end", b"until the end" * 1000)
        calls_out(gateway, "/answer-reset", b"whole")
        gateway.frees(base)


def not_answered(gateway, upstream):
    """Callouts fail whose server resets, ends in mid-answer, or says nothing until their time is over; and one whose answer is too long."""
    base = gateway.descriptors()
    for path in ("/reset", "/part-reset", "/part-close", "/silent", "/big/2000000"):
        calls_out(gateway, path, b"failed", "503")
    gateway.frees(base)


def calls_at_once(gateway, upstream):
    """Several callouts of one worker at once, each answered by its own answer."""
    at_once(60, lambda n: calls_out(gateway, "/at-once/%d" % n, b"/at-once/%d" % n))


def too_many_calls(gateway, upstream):
    """64 callouts are under way at most: a further one is refused. Once these failed there may be others."""
    base = gateway.descriptors()
    lines = [gateway.connect() for _ in range(64)]
    for s in lines:
        s.sendall(request("/call/silent"))
    # By now all of them are under way, and the time of none is over.
    time.sleep(0.1)
    calls_out(gateway, "/one-more", b"full", "429")
    for s in lines:
        first, fields = Reader(s).head()
        expect(status_of(first), "503")
        s.close()
    calls_out(gateway, "/later", b"/later")
    gateway.frees(base)


def gone_meanwhile(gateway, upstream):
    """Clients go while their callouts are under way: these end all the same, and leave no descriptor."""
    base = gateway.descriptors()
    for n in range(10):
        s = gateway.connect()
        s.sendall(request("/call/late" if n % 2 else "/call/silent"))
        time.sleep(0.01)
        reset(s)
    gateway.frees(base)
    calls_out(gateway, "/behind", b"/behind")


def no_server_for_calls(gateway, upstream):
    """Callouts fail at once where nobody listens."""
    for n in range(3):
        calls_out(gateway, "/%d" % n, b"failed", "503")


def tells(text):
    """Whether standard error has lines of this notice, once or several times, and nothing else."""
    return lambda err: re.fullmatch(rb"(warn %s: [1-9][0-9]*\n)+" % re.escape(text.encode()), err) is not None


CALLED = b"store caller calls 0 keys 0 items 0\n"


def counts(text, wanted):
    """Whether standard error has lines of this notice, which come to so many in all, and nothing else."""

    def is_so(err):
        return tells(text)(err) and sum(int(line.rsplit(b" ", 1)[1]) for line in err.splitlines()) == wanted

    return is_so


# name, workers, what the configuration has besides, what is printed at the end, cases with how many lines each opens, and where it is looked at
# what is true of standard error
GROUPS = [
    (
        "one worker",
        1,
        "",
        b"",
        [
            (plain, 1),
            (with_body, 1),
            (pipelined, 1),
            (resets, 3),
            (reset_behind, 1),
            (early_answer, 1),
            (sent_on, 1),
            (half_closed, 1),
            (byte_by_byte, 1),
            (to_the_end, 1),
            (malformed, 1),
            (stray, 1),
            (stalled, 2),
            (several_stalled, 16),
            (descriptors, 21),
            (client_resets, 11),
            (client_closes, 11),
            (by_curl, 1),
            (remembers_nothing, 45),
        ],
    ),
    (
        "one worker, at ends",
        1,
        "",
        b"",
        [
            (more_than_is_read, 1),
            (goes_on_sending, 1),
            (closes_at_once, 5),
            (in_turn, 3),
            (both_sides_in_turn, 1),
            (sent_on_of_two, 2),
            (server_stays, 2),
            (few_linger, 351),
            (address_taken, 1),
        ],
    ),
    ("that rests", 2, "", b"", [(rests, 11)], lambda err: err == b""),
    ("silent lines", 2, "", b"", [(silent_lines, 101)]),
    ("beside a filter that works", 1, WITH_A_BUSY_FILTER, b"store busy calls 0 keys 0 items 0\n", [(beside_work, 2)]),
    ("a slow server", 1, "", b"", [(slow_server, 1)]),
    ("a crowd", 1, "", b"", [(crowd, 200)], tells("no place for a line")),
    ("places that are taken", 1, "", b"", [(waits_for_places, 148)], lambda err: err == b""),
    ("places of another worker", 2, "", b"", [(other_places, 296)], lambda err: err == b""),
    ("a flood", 1, "", b"", [(flooded, 128 + FLOOD)]),
    ("three workers", 3, "", b"", [(many, 30)]),
    ("no server", 1, "", b"", [(refusing, 1)], tells("upstream refused")),
    ("a server that breaks off", 1, "", b"", [(to_a_plain_reset, 1)], tells("upstream broke off in its answer")),
    ("a server that hangs up", 1, "", b"", [(hung_up, 1)], tells("upstream ended before its answer")),
    ("bad responses", 1, "", b"", [(bad_responses, 3)], counts("502 on a response of the upstream", 3)),
    ("a body like an answer", 1, "", b"", [(quoted, 1)], lambda err: err == b""),
    ("other addresses", 1, "", b"", [(other_addresses, 1)]),
    ("clients that stay", 1, "", b"", [(refused_stays, 11)], lambda err: err == b""),
    ("a filter of bodies", 1, WITH_SHOUT, b"store shout calls 0 keys 0 items 0\n", [(to_a_reset, 2)], tells("upstream broke off in its answer")),
    (
        "stores",
        2,
        WITH_STORES,
        b"store first calls 0 keys 0 items 0\nstore second calls 0 keys 0 items 0\n",
        [(plain, 1), (nothing, 1)],
    ),
    (
        "metrics",
        2,
        WITH_A_METER,
        b"store meter calls 0 keys 0 items 0\nmetric meter counter 7265717565737473 6\n",
        [(metered, 3)],
    ),
    ("an operator's filters", 2, WITH_AN_OPERATOR, AFTER_AN_OPERATOR, [(operated, 2)], lambda err: OPERATED.fullmatch(err) is not None),
    ("some memory", 2, WITH_LARGE_VMS, b"", [(some_memory, 6)]),
    ("a queue", 2, WITH_A_QUEUE, AFTER_A_QUEUE, [(noticed, 2)], lambda err: err == b""),
    ("two deadlines", 1, "deadline_ms = 2000", b"", [(two_deadlines, 2)]),
    ("a deadline", 1, "deadline_ms = 300", b"", [(deadline, 1)], lambda err: err == b""),
    ("responses at their deadlines", 1, "deadline_ms = 40", b"", [(due_response, 240)], lambda err: err == b""),
    ("short lines", 3, "", b"", [(short_lines, 600)]),
    ("a filter that tells", 1, WITH_A_TELLER % "", TOLD, [(random_bytes, 1), (logged, 1)], lambda err: err == LOGGED),
    ("its random bytes", 1, WITH_A_TELLER % "", TOLD, [(random_bytes, 1)]),
    # So many workers that seeds of a single byte would hardly all differ.
    *[("its random bytes by workers, %d" % n, 8, WITH_A_TELLER % "", TOLD, [(random_by_workers, 8)]) for n in range(6)],
    ("a log that is not read", 1, WITH_A_TELLER % "", TOLD, [(unread_log, 1)], lambda err: 1000 < err.count(b"warn a line") < 2500),
    ("ticks", 1, WITH_A_TELLER % 'configuration = "tick"\n', TOLD, [(quiet, 1)], has_ticked),
    ("late ticks", 1, WITH_A_TELLER % 'configuration = "slow"\n', TOLD, [(late_ticks, 3)], lambda err: err == b""),
    ("no descriptor for a server", 1, "", b"", [(undialled, 1)], tells("upstream not dialled, no descriptor or port is left")),
    ("descriptors that run out", 1, "", b"", [(no_descriptor, 5)], tells("line not accepted, the system refused it")),
    ("lines that are not read", 1, "", b"", [(unread, 363)]),
    ("no thread for a worker", 2, "", b"", [(begins_late, 3)], tells("another worker never began, it gets no line")),
    ("a clock that steps", 1, "deadline_ms = 2000", b"", [(clock_steps, 8)]),
    ("restarts", 1, "", b"", [(restarted_behind_a_proxy, 1), (restarted_in_place, 1)]),
    ("callouts", 1, WITH_A_CALLER, CALLED, [(called_out, 6), (not_answered, 5), (calls_at_once, 60), (too_many_calls, 66), (gone_meanwhile, 11)]),
    ("callouts of two workers", 2, WITH_A_CALLER, CALLED, [(called_out, 6), (calls_at_once, 60)]),
    ("no server for callouts", 1, WITH_A_CALLER, CALLED, [(no_server_for_calls, 3)], tells("upstream refused")),
]


def run_group(program, folder, upstream, group):
    name, workers, more, wanted, cases = group[:5]
    told = group[5] if len(group) > 5 else None
    lines = sum(opens for _, opens in cases)
    address = "127.0.0.1"
    if name == "other addresses":
        address, upstream = "127.0.0.3", Upstream("127.0.0.2")
    if name == "a slow server":
        upstream = Upstream(sips=True)
    port = closed_port() if name.startswith("no server") else upstream.port
    memory = resource.RLIM_INFINITY
    if name == "some memory":
        without = Gateway(program, folder, address, (upstream.address, port), 2, workers)
        nothing(without, upstream)
        memory = without.size() + LARGE_ROOM
        without.kill()
    clock = env = None
    if name in ("a clock that steps", "no thread for a worker"):
        clock = Clock(folder)
        env = clock.env if name == "a clock that steps" else preloaded(folder, "threads")
        if env is None:
            print("live/%s: skipped, there is no cc that builds what it needs" % name)
            return 0, 0
    gateway = Gateway(program, folder, address, (upstream.address, port), lines, workers, more, memory, env=env)
    gateway.clock = clock
    passed, failed = 0, 0
    try:
        for case, _ in cases:
            try:
                case(gateway, upstream)
                passed += 1
            except Exception as e:
                failed += 1
                print("FAIL live/%s: %s: %r" % (name, case.__name__, e), flush=True)
        if failed == 0:
            try:
                if memory == resource.RLIM_INFINITY:
                    gateway.ends(wanted, told)
                else:
                    gateway.ends_for_memory()
                passed += 1
            except Exception as e:
                failed += 1
                print("FAIL live/%s: its end: %r" % (name, e), flush=True)
    finally:
        gateway.kill()
    return passed, failed


def main():
    signal.alarm(ALL)
    program = [os.path.abspath(sys.argv[1])] + sys.argv[2:]
    upstream = Upstream()
    passed, failed = 0, 0
    with tempfile.TemporaryDirectory() as folder:
        for module, text in (("marked", MARKED), ("large", LARGE)):
            with open(os.path.join(folder, module + ".wasm"), "wb") as f:
                f.write(text)
        for module in (METER, SHOUT, TELLER, BUSY, CALLER, WAITS, ENQUEUES, *OPERATORS):
            shutil.copy(module, folder)
        only = os.environ.get("ONLY", "")
        for group in [group for group in GROUPS if only in group[0]]:
            p, f = run_group(program, folder, upstream, group)
            passed += p
            failed += f
    print("live: %d passed, %d failed" % (passed, failed))
    sys.exit(1 if failed else 0)


main()
