"""The program where memory is refused, one allocation in turn, or one and all later ones.

python3 memory.py PROGRAM SHIM [--all] [--only TEXT]: SHIM is refuse.c as a library. A row is a command; with --only those alone whose names have TEXT. It runs once with no allocation refused, which gives the whole
answer and how many allocations it asks for, and then once for each of them that is refused (of many: for some, unless --all is given). Then
either the run ends with status 8 and the line `wasmgate: memory`, and what it wrote is a front of the whole, or what it wrote is the whole. Past the last
allocation it is the whole. No run takes longer than PATIENCE.

Under `serve` the same holds of what each client gets. A worker that is refused memory may begin anew, and then says so and serves later clients.
"""

import concurrent.futures
import os
import re
import socket
import struct
import subprocess
import sys
import tempfile
import threading
import time

PROGRAM, SHIM = (os.path.abspath(it) for it in sys.argv[1:3])
ALL = "--all" in sys.argv[3:]
ONLY = sys.argv[sys.argv.index("--only") + 1] if "--only" in sys.argv[3:-1] else ""
HERE = os.path.dirname(os.path.abspath(__file__))
CASES = os.path.join(os.path.dirname(HERE), "cases")
FILTERS = os.path.join(os.path.dirname(os.path.dirname(HERE)), "examples", "filters")
PATIENCE = 30.0  # seconds for one run
LINE = b"wasmgate: memory\n"
BEGUN = time.monotonic()


class Run:
    """One run of the program with allocation `at` refused, and with `on` all later ones: `end` gives its status, output and standard error, or nothing
    where it takes too long, and `asked` how many allocations it asked for."""

    def __init__(self, words, at, on, folder, **how):
        self.file = tempfile.NamedTemporaryFile()
        self.file.write(bytes(8))
        self.file.flush()
        env = {"LD_PRELOAD": SHIM, "REFUSE_COUNT": self.file.name, "REFUSE_AT": str(at), **({"REFUSE_ON": "1"} if on else {})}
        self.process = subprocess.Popen([PROGRAM, *words], env=env, cwd=folder, stdout=subprocess.PIPE, stderr=subprocess.PIPE, **how)

    def end(self, given=None):
        try:
            out, err = self.process.communicate(given, timeout=PATIENCE)
            return self.process.returncode, out, err
        except subprocess.TimeoutExpired:
            self.process.kill()
            self.process.communicate()
            return None

    def asked(self):
        self.file.seek(0)
        return struct.unpack("=q", self.file.read(8))[0]


def is_front(whole, got):
    """Whether a run that was refused memory wrote what it may."""
    return got is not None and got[0] == 8 and got[2].endswith(LINE) and whole[1].startswith(got[1]) and whole[2].startswith(got[2][: -len(LINE)])


def case(name):
    """What runs a case of tests/cases."""
    folder = os.path.join(CASES, name)
    with open(os.path.join(folder, "args"), encoding="utf-8") as file:
        words = file.read().splitlines()
    with open(os.path.join(folder, "stdin"), "rb") as file:
        given = file.read()

    def once(at, on):
        run = Run(words, at, on, folder, stdin=subprocess.PIPE)
        return run.end(given), run.asked()

    return once


def words_of(*words):
    """What runs the program with these words, here, with no input."""

    def once(at, on):
        run = Run(words, at, on, HERE, stdin=subprocess.DEVNULL)
        return run.end(), run.asked()

    return once


def free_port():
    """A port at which nobody listens."""
    with socket.socket() as s:
        s.bind(("127.0.0.1", 0))
        return s.getsockname()[1]


def answer_all(listener):
    """A server that answers each connection's request with a chunked body, and closes."""

    def answer(s):
        with s:
            s.settimeout(PATIENCE)
            text = b""
            try:
                while b"\r\n\r\n" not in text:
                    piece = s.recv(65536)
                    if not piece:
                        return
                    text += piece
                s.sendall(b"HTTP/1.1 200 OK\r\nDate: Mon, 30 Nov 2026 00:00:00 GMT\r\nTransfer-Encoding: chunked\r\n\r\n4\r\nwell\r\n0\r\n\r\n")
            except OSError:
                pass

    while True:
        try:
            s, _ = listener.accept()
        except OSError:
            return
        threading.Thread(target=answer, args=(s,), daemon=True).start()


def exchange(port, process):
    """Everything that a client gets for one request, or nothing where the process has ended."""
    until = time.monotonic() + PATIENCE
    while time.monotonic() < until:
        try:
            with socket.create_connection(("127.0.0.1", port), PATIENCE) as s:
                got = b""
                try:
                    s.settimeout(PATIENCE)
                    s.sendall(b"POST /x HTTP/1.1\r\nHost: a\r\nConnection: close\r\nTransfer-Encoding: chunked\r\n\r\n2\r\nab\r\n0\r\n\r\n")
                    while piece := s.recv(65536):
                        got += piece
                except ConnectionError:
                    pass
                except TimeoutError:
                    return None
                return got
        except ConnectionError:
            if process.poll() is not None:
                return b""
            time.sleep(0.005)
        except TimeoutError:
            return None
    return None


def serving(workers, server):
    """What runs `serve` with two filters for three connections, and gives what their clients got too."""

    def once(at, on):
        port = free_port()
        with tempfile.TemporaryDirectory() as folder:
            with open(f"{folder}/config.toml", "w", encoding="utf-8") as file:
                file.write(f'[gateway]\nlisten = "127.0.0.1:{port}"\nupstream = "127.0.0.1:{server}"\nworkers = {workers}\n')
                for name in ("add_header", "meter"):
                    file.write(f'[[vm]]\nname = "{name}"\nmodule = "{FILTERS}/{name}.wasm"\n[[plugin]]\nname = "{name}"\nvm = "{name}"\n')
                file.write('[[route]]\npath = "/{*rest}"\nfilters = ["add_header", "meter"]\n')
            run = Run(["serve", "config.toml", "--stop-after", "3"], at, on, folder, stdin=subprocess.DEVNULL)
            texts = [exchange(port, run.process) for _ in range(3)]
            end = run.end()
        # (Another process took the port.)
        if end and end[0] == 6:
            return once(at, on)
        return (*end, *texts) if end else None, run.asked()

    return once


def is_served(whole, got):
    """Whether a run of `serve` that was refused memory wrote what it may: each client got a front of the whole."""
    if got is None or got[0] != 8 or not got[2].endswith(LINE) or not whole[1].startswith(got[1]) or None in got:
        return False
    # (The filter's count of requests says 1 to the first one that got so far.)
    texts, wanted = ([re.sub(rb"x-requests: [123]", b"x-requests: 1", it) for it in ends[3:]] for ends in (got, whole))
    return all(text.startswith(it) for text, it in zip(wanted, texts))


def is_told(whole, got):
    """The same with one worker, which has begun anew where a client is answered after one whose exchange broke off: the log says so, once."""
    if not is_served(whole, got):
        return False
    broke = [len(text) < len(it) for text, it in zip(got[3:], whole[3:])]
    return got[2].count(b"warn worker begins anew: 1\n") == 1 or not any(a and not b for a, b in zip(broke, broke[1:]))


def steps(count, most):
    """The numbers of the allocations that are refused: the first ones, and then so many that are `most` in all; and two past the last one."""
    if ALL or count <= most:
        return [*range(1, count + 3)]
    dense = most // 2
    return [*range(1, dense + 1), *range(dense + 1, count, (count - dense) // (most - dense) + 1), count + 1]


failed = []
passed = 0
harmless = 0


def judge(name, once, judged, numbers):
    """Tries a row: each of these allocations refused alone, and that and all later ones."""
    global passed, harmless
    if ONLY not in name:
        return 0
    whole, asked = once(0, False)
    if whole is None:
        failed.append(f"{name}: it does not end")
        return 0
    tries = [(at, on) for on in (False, True) for at in numbers(asked)]
    wrong = []
    for (at, on), (got, count) in zip(tries, POOL.map(lambda it: once(*it), tries)):
        if got == whole:
            harmless += count >= at
        elif count < at or not judged(whole, got):
            wrong.append(f"allocation {at} of {asked}{' and all later ones' if on else ''}: {got!r}")
    if wrong:
        failed.append(f"{name}: {len(wrong)} of {len(tries)} runs, the first ones: " + "; ".join(wrong[:3]) + f"; in place of a front of {whole!r}")
    else:
        passed += 1
    return len(tries)


# The rows that are always tried, and those cases that are too long to be tried in full.
SOME = """a-response chunked-response lines-apart until-the-end-of-the-line upstream-gone-inside-a-body deadline-is-504 trap-is-503 filter-denies ticks
dead-filter-is-skipped answer-of-the-gateway-is-filtered bodies-behind-one-filter-of-two notice-of-the-second-vm bad-line no-such-file other-command
invoke invoke-fills invoke-cut-module invoke-no-export invoke-calls-with-many-locals check-counts-each check-two-vms too-many-workers""".split()
MANY = ["generate", "generate-most", "a-callback-of-900000-effects"]

with concurrent.futures.ThreadPoolExecutor(len(os.sched_getaffinity(0))) as POOL, socket.create_server(("127.0.0.1", 0), backlog=128) as listener:
    threading.Thread(target=answer_all, args=(listener,), daemon=True).start()
    server = listener.getsockname()[1]
    runs = 0
    for name in [it for it in sorted(os.listdir(CASES)) if it not in MANY] if ALL else SOME:
        runs += judge(f"cases/{name}", case(name), is_front, lambda count: steps(count, 4000))
    runs += judge("generate", words_of("generate", "7"), is_front, lambda count: steps(count, 4000 if ALL else 100))
    for workers in (1, 2):
        runs += judge(f"serve, workers = {workers}", serving(workers, server), is_told if workers == 1 else is_served, lambda count: [*range(1, count, 1 if ALL or workers == 1 else 10), count + 1])

for name in failed:
    print(f"FAIL memory: {name}")
print(f"memory: {runs} runs in {time.monotonic() - BEGUN:.0f} s, of which {harmless} gave the whole although they were refused memory")
print(f"memory: {passed} passed, {len(failed)} failed")
sys.exit(bool(failed))
