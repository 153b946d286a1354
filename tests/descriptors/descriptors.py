"""The program where standard input, output or error is closed, where a read of standard input fails after its first bytes, and where memory ends before its words are
read. It needs Linux.

python3 descriptors.py PROGRAM: with each set of the three descriptors closed,

- `serve` has no socket, and nothing else that it opens to serve, at the number of any of them; a client gets what it gets where all are open, byte for
  byte, also where a filter writes lines of the log meanwhile; and the process ends as it does there;
- a script that cannot be read, an output and a line of a status that cannot be written end the run with the statuses that they have.

And with words that take more memory than there is, the run ends with 8 and its line, and never without it.
"""

import itertools
import os
import pty
import resource
import socket
import subprocess
import sys
import tempfile
import threading
import time
import tty

PROGRAM = os.path.abspath(sys.argv[1])
HERE = os.path.dirname(os.path.abspath(__file__))
TELLER = os.path.join(HERE, "..", "live", "teller.wasm")
PATIENCE = 20.0  # seconds for one answer
STREAMS = (subprocess.DEVNULL, subprocess.PIPE, subprocess.PIPE)

failed = []
passed = 0


def judge(name, got, wanted):
    """Counts a case."""
    global passed
    if got == wanted:
        passed += 1
    else:
        failed.append(f"{name}: {got!r} in place of {wanted!r}")


def start(words, closed, folder="."):
    """Starts the program with these descriptors closed."""

    def close():
        for number in closed:
            os.close(number)

    return subprocess.Popen([PROGRAM, *words], stdin=STREAMS[0], stdout=STREAMS[1], stderr=STREAMS[2], cwd=folder, preexec_fn=close)


def ended(words, closed):
    """The status, output and line of a run."""
    process = start(words, closed)
    out, err = process.communicate(timeout=PATIENCE)
    return process.returncode, out, err


def free_port():
    """A port at which nobody listens."""
    with socket.socket() as s:
        s.bind(("127.0.0.1", 0))
        return s.getsockname()[1]


def answer_all(listener):
    """A server that answers each connection's request with 204 and closes."""
    while True:
        try:
            s, _ = listener.accept()
        except OSError:
            return
        with s:
            s.settimeout(PATIENCE)
            text = b""
            while b"\r\n\r\n" not in text:
                piece = s.recv(65536)
                if not piece:
                    break
                text += piece
            s.sendall(b"HTTP/1.1 204 No Content\r\nDate: Mon, 30 Nov 2026 00:00:00 GMT\r\n\r\n")


def exchange(port, path):
    """Everything that a client gets for one request."""
    for _ in range(500):
        try:
            s = socket.create_connection(("127.0.0.1", port), PATIENCE)
            break
        except ConnectionRefusedError:
            time.sleep(0.02)
    else:
        return b"nobody listens"
    with s:
        s.settimeout(PATIENCE)
        s.sendall(b"GET %s HTTP/1.1\r\nHost: a\r\nConnection: close\r\n\r\n" % path)
        got = b""
        while True:
            piece = s.recv(65536)
            if not piece:
                return got
            got += piece


def at_standard(process):
    """What stands at the numbers 0, 1 and 2 of a process."""
    return [os.readlink(f"/proc/{process.pid}/fd/{number}") if os.path.lexists(f"/proc/{process.pid}/fd/{number}") else "" for number in range(3)]


def serve(folder, server, closed):
    """What a client gets for a request during which the filter writes a line of the log, and for one after it; what stands at the numbers of closed
    descriptors while `serve` has a client; and how the process ends."""
    port = free_port()
    with open(f"{folder}/config.toml", "w", encoding="utf-8") as file:
        file.write(
            f'[gateway]\nlisten = "127.0.0.1:{port}"\nupstream = "127.0.0.1:{server}"\n'
            '[[vm]]\nname = "teller"\nmodule = "teller.wasm"\n[[plugin]]\nname = "teller"\nvm = "teller"\n'
            '[[route]]\npath = "/{*rest}"\nfilters = ["teller"]\n'
        )
    process = start(["serve", "config.toml", "--stop-after", "3"], closed, folder)
    try:
        first = exchange(port, b"/l")
        with socket.create_connection(("127.0.0.1", port), PATIENCE) as s:
            s.sendall(b"GET /l HTTP/1.1\r\nHost: a\r\n\r\n")
            s.settimeout(PATIENCE)
            second = s.recv(65536)
            held = at_standard(process)
            s.shutdown(socket.SHUT_WR)
            second += s.recv(65536)
        third = exchange(port, b"/x")
        _, err = process.communicate(timeout=PATIENCE)
        return (first, second, third), [held[number] for number in closed], process.returncode, err
    finally:
        process.kill()
        process.communicate()


sets = [closed for n in (1, 2, 3) for closed in itertools.combinations(range(3), n)]

with tempfile.TemporaryDirectory() as folder, socket.create_server(("127.0.0.1", 0)) as listener:
    with open(TELLER, "rb") as module, open(f"{folder}/teller.wasm", "wb") as file:
        file.write(module.read())
    threading.Thread(target=answer_all, args=(listener,), daemon=True).start()
    server = listener.getsockname()[1]
    texts, _, status, log = serve(folder, server, ())
    judge("serve, all open: the first answer", texts[0][:13], b"HTTP/1.1 204 ")
    judge("serve, all open: the log", b"warn a line" in log, True)
    for closed in sets:
        got, held, ended_with, err = serve(folder, server, closed)
        name = f"serve with {closed} closed"
        judge(f"{name}: what a client gets", got, texts)
        judge(f"{name}: what has their numbers", held, ["/"] * len(closed))
        # (The output is what the stores came to.)
        judge(f"{name}: status", ended_with, 7 if 1 in closed else status)
        judge(f"{name}: the log", err, b"" if 2 in closed else log + b"wasmgate: out\n" * (1 in closed))

for closed in sets:
    got = ended(["replay", "-"], closed)
    judge(f"replay - with {closed} closed", got, (5, b"", b"" if 2 in closed else b"wasmgate: file\n") if 0 in closed else (0, b"", b""))
    got = ended(["generate", "7"], closed)
    judge(f"generate with {closed} closed", (got[0], got[2]), (7, b"" if 2 in closed else b"wasmgate: out\n") if 1 in closed else (0, b""))
    judge(f"no form with {closed} closed", ended(["none"], closed), (2, b"", b"" if 2 in closed else b"wasmgate: usage\n"))



def read_from(text, fails):
    """The status, output and line of `replay -` with this script: by a pipe, or by a terminal whose other side is closed behind it, so that a read
    fails once the text was read."""
    if not fails:
        done = subprocess.run([PROGRAM, "replay", "-"], input=text, capture_output=True, timeout=PATIENCE)
        return done.returncode, done.stdout, done.stderr
    near, far = pty.openpty()
    tty.setraw(far)
    os.write(far, text)
    os.close(far)
    done = subprocess.run([PROGRAM, "replay", "-"], stdin=near, capture_output=True, timeout=PATIENCE)
    os.close(near)
    return done.returncode, done.stdout, done.stderr


script = b"open 1\nbytes 1 474554202f20485454502f312e310d0a486f73743a20610d0a0d0a\nstop\n"
judge("a script that is read whole", read_from(script, False)[0], 0)
judge("a read that fails after the script", read_from(script, True), (5, b"", b"wasmgate: file\n"))

# With one descriptor to spare, which is what the loader takes, it cannot be seen whether the numbers are held.
def with_few():
    resource.setrlimit(resource.RLIMIT_NOFILE, (4, 4))


process = subprocess.Popen([PROGRAM, "replay", "-"], stdin=STREAMS[0], stdout=STREAMS[1], stderr=STREAMS[2], preexec_fn=with_few)
out, err = process.communicate(timeout=PATIENCE)
judge("one descriptor to spare", (process.returncode, out, err), (6, b"", b"wasmgate: site\n"))

# Some 1.6 MB of words, under bounds of addresses from what is too little for the loader up to what is enough, in steps of 256 KiB.
words = ["x" * 100_000] * 15 + ["x" * 1000] * 100
ends = set()
for size in range(1 << 20, 256 << 20, 1 << 18):

    def bounded():
        resource.setrlimit(resource.RLIMIT_AS, (size, size))

    try:
        process = subprocess.Popen([PROGRAM, *words], stdin=STREAMS[0], stdout=STREAMS[1], stderr=STREAMS[2], preexec_fn=bounded)
    except OSError:
        continue
    out, err = process.communicate(timeout=PATIENCE)
    if process.returncode in (2, 8):
        ends.add((process.returncode, out, err))
    if process.returncode == 2:
        break
judge("words that memory does not hold", sorted(ends), [(2, b"", b"wasmgate: usage\n"), (8, b"", b"wasmgate: memory\n")])

for name in failed:
    print(f"FAIL descriptors: {name}")
print(f"descriptors: {passed} passed, {len(failed)} failed")
sys.exit(bool(failed))
