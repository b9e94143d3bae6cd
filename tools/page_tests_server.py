"""The self-test of tools/page --listen: requests of every kind from outside, and what is left running behind them."""
import contextlib
import http.client
import os
import signal
import socket
import subprocess
import threading
import time
from typing import Iterator, NamedTuple, Optional
from urllib.parse import urlencode

from page_tests import EXAMPLES, HOSTILE, Shape, Tests, read, source_text
from page_text import shown

# (a turn of it takes long, so that no bound ends it before its time is over)
ENDLESS = b"""void *memset(void *, int, unsigned long);
static char held[100000];
int main(void) {
  while (1)
    memset(held, 1, 100000);
  return 0;
}
"""
LOOP = b"int main(void) { int n = 0; while (1) n = !n; return n; }\n"
PRINTS = b"""int printf(const char *, ...);
int main(void) {
  while (1)
    printf("0123456789abcdef0123456789abcdef0123456789abcdef0123456789abcdef\\n");
  return 0;
}
"""


class Told(NamedTuple):
    status: int
    text: str


class Served:
    """A server that was begun, and requests to it."""

    def __init__(self, tests: Tests, port: int, process: subprocess.Popen, rooms: str):
        self.tests, self.port, self.process, self.rooms = tests, port, process, rooms
        self.said = b""  # on standard error, when it has ended

    def ask(self, method: str, path: str, body: bytes = b"", headers: Optional[dict] = None) -> Told:
        connection = http.client.HTTPConnection("127.0.0.1", self.port, timeout=150)
        with contextlib.closing(connection):
            connection.request(method, path, body or None, headers or {})
            told = connection.getresponse()
            return Told(told.status, told.read().decode())

    def answer(self, source: bytes, script: bytes = b"", **words: object) -> Told:
        return self.ask("POST", "/answer?" + urlencode({"script": len(script), **words}), script + source)

    def children(self) -> list[int]:
        """The processes that the server has begun and that are still there."""
        found = []
        for name in filter(str.isdecimal, os.listdir("/proc")):
            with contextlib.suppress(OSError):
                with open(f"/proc/{name}/stat", encoding="ascii", errors="replace") as file:
                    if file.read().rpartition(")")[2].split()[1] == str(self.process.pid):
                        found.append(int(name))
        return found


def free_port() -> int:
    with contextlib.closing(socket.socket()) as one:
        one.bind(("127.0.0.1", 0))
        return one.getsockname()[1]


@contextlib.contextmanager
def serving(tests: Tests) -> Iterator[Served]:
    """A server on a free port, with a folder for its rooms."""
    port, rooms = free_port(), os.path.join(tests.room, "rooms")
    os.makedirs(rooms, exist_ok=True)
    words = [*tests.words, "--listen", str(port)]
    streams = {"stdin": subprocess.DEVNULL, "stdout": subprocess.PIPE, "stderr": subprocess.PIPE}
    with subprocess.Popen(words, **streams, env={**os.environ, "TMPDIR": rooms}) as process:
        served = Served(tests, port, process, rooms)
        try:
            process.stdout.readline()
            yield served
        finally:
            process.send_signal(signal.SIGTERM)
            served.said = process.communicate()[1]


def try_server(tests: Tests) -> None:
    with serving(tests) as served:
        for part in (try_modes, try_includes, try_refusals, try_hostile_requests, try_at_once, try_endless, try_broken_off):
            part(served)
            tests.same(f"{part.__name__}: no folder is left", [], os.listdir(served.rooms))
            tests.same(f"{part.__name__}: nothing is left running", [], served.children())
        told = tests.call("--listen", str(served.port))
        tests.holds("a port that is taken", told.returncode == 2 and b"can't be listened to" in told.stderr, told.stderr)
    tests.same("the server's end, and what it said beside", (0, b""), (served.process.returncode, served.said))
    try_interrupted(tests)


def try_modes(served: Served) -> None:
    tests = served.tests
    told = served.ask("GET", "/")
    tests.same("the editor", (200, []), (told.status, Shape(told.text).faults))
    examples = [said["data-example"] for _, said in Shape(told.text).attributes if "data-example" in said]
    names = sorted(name[:-2] for name in os.listdir(EXAMPLES) if name.endswith(".c"))
    tests.same("a button for each example", names, sorted(examples))
    source, script = read(f"{EXAMPLES}/two_candidates.c"), read(f"{EXAMPLES}/two_candidates.script")
    for mode, holds in {
        "run": "exit status=0 turn=29", "settle": "Settled for y#1 (high)", "check": "checked declarations=3",
        "layout": "No structure or union",
    }.items():
        told = served.answer(source, script, mode=mode)
        tests.holds(f"{mode}", told.status == 200 and holds in told.text and "valumeiro-" not in told.text, told)
    told = served.answer(b"struct s { char c; long n; };\nint main(void) { return 0; }\n", mode="layout")
    tests.holds("a layout", "struct s size=16 align=8" in told.text and "n offset=8 size=8" in told.text, told)
    told = served.answer(b"int main(void) {\n  return n;\n}\n")
    tests.holds("a refusal", "refused reason=constraint" in told.text, told)
    told = served.answer(source, b"x 1 nowhere\n")
    tests.holds("a script that is none", "script reason=line line=1" in told.text, told)
    told = served.answer(b"int main(void) { while (1) ; return 0; }\n", turns=5)
    tests.holds("a bound", "turns bound=5" in told.text, told)


def try_includes(served: Served) -> None:
    """The headers that come with the launcher may be read, and no other file."""
    tests = served.tests
    secret = tests.file("secret.h", "int secret_word;\n#error secret_error\n")
    plain = tests.file("plain_secret.h", "int secret_word;\n")
    told = served.answer(b'#include <stdio.h>\nint main(void) {\n  printf("hi\\n");\n  return *(int *)0;\n}\n')
    tests.holds("a header", "line 4" in told.text and "hi" in told.text, told)
    for what, source in {
        "a file": f'#include "{plain}"\n',
        "a file by a macro": f'#define F "{plain}"\n#include F\n',
        "a file with a fault": f'#include "{secret}"\n',
        "a file behind a continued line": f'#incl\\\nude "{plain}"\n',
        "a file by digraphs": f'%:include "{plain}"\n',
        "import": f'#import "{plain}"\n',
        "a file above": '#include "../../../../../../etc/passwd"\n',
        "embed": f'int a[] = {{\n#embed "{plain}"\n}};\n',
    }.items():
        told = served.answer(source.encode() + b"int main(void) { return 0; }\n")
        is_told = "secret_" in told.text or "root:" in told.text
        tests.holds(f"{what} is not read", told.status == 200 and "No answer" in told.text and not is_told, told)
    told = served.answer(f'#define N 1\n# 1 "{plain}"\nint main(void) {{ return 1 / 0; }}\n'.encode())
    tests.holds("a line marker reads no file", told.status == 200 and "secret_" not in told.text, told)
    told = served.answer(f'# 1 "{plain}"\nint main(void) {{ return 1 / 0; }}\n'.encode())
    tests.holds("a line marker alone reads no file", "clause=6.5.5p5" in told.text and "secret_" not in told.text, told)
    told = served.answer(b"#include <none.h>\nint main(void) { return 0; }\n")
    tests.holds("no such header", "could not be preprocessed" in told.text and "line 1" in told.text, told)


def try_refusals(served: Served) -> None:
    tests = served.tests
    port = served.port
    for what, status, method, path, headers in [
        ("a foreign Host", 403, "GET", "/", {"Host": "example.com"}),
        ("a foreign Host with this port", 403, "GET", "/", {"Host": f"example.com:{port}"}),
        ("a foreign Host for a run", 403, "POST", "/answer", {"Host": "example.com", "Content-Length": "0"}),
        ("another port", 403, "GET", "/", {"Host": "127.0.0.1:1"}),
        ("another page's request", 403, "POST", "/answer", {"Origin": "https://example.com", "Content-Length": "0"}),
        ("a page without a name", 403, "POST", "/answer", {"Origin": "null", "Content-Length": "0"}),
        ("this page's request", 200, "POST", "/answer", {"Origin": f"http://127.0.0.1:{port}", "Content-Length": "0"}),
        ("localhost", 200, "GET", "/", {"Host": f"localhost:{port}"}),
        (".. in a path", 404, "GET", "/../../etc/passwd", {}),
        (".. behind signs", 404, "GET", "/%2e%2e/%2e%2e/etc/passwd", {}),
        ("a file of the project", 404, "GET", "/page.d/page.js", {}),
        ("another path", 404, "POST", "/run", {"Content-Length": "0"}),
        ("another method", 501, "PUT", "/answer", {"Content-Length": "0"}),
        ("no length", 411, "POST", "/answer", {"Transfer-Encoding": "chunked"}),
        ("a length that is none", 411, "POST", "/answer", {"Content-Length": "-1"}),
        ("another mode", 400, "POST", "/answer?mode=gen", {"Content-Length": "0"}),
        ("a mode that is a word of a shell", 400, "POST", "/answer?mode=$(id)", {"Content-Length": "0"}),
        ("turns that are none", 400, "POST", "/answer?turns=x", {"Content-Length": "0"}),
        ("too many turns", 400, "POST", "/answer?turns=100000001", {"Content-Length": "0"}),
        ("turns in other digits", 400, "POST", "/answer?turns=%D9%A3", {"Content-Length": "0"}),
        ("a script that is longer than all", 400, "POST", "/answer?script=3", {"Content-Length": "0"}),
    ]:
        told = served.ask(method, path, headers=headers)
        tests.holds(f"{what}: wanted {status}", told.status == status and "root:" not in told.text, told)
    told = served.ask("POST", "/answer", b"x" * (2 << 20))
    tests.holds("a request of 2 MB", told.status == 413 and "1048576 bytes" in told.text, told)
    told = served.ask("POST", "/answer", b"x" * (1 << 20))
    tests.holds("a request of 1 MB", told.status == 200 and "refused reason=syntax" in told.text, told.text[:300])
    with open(f"/proc/{served.process.pid}/net/tcp", encoding="ascii") as file:
        places = [line.split()[1] for line in file if f":{port:04X} " in line and line.split()[3] == "0A"]
    tests.same("it listens on 127.0.0.1 alone", [f"0100007F:{port:04X}"], places)


def try_hostile_requests(served: Served) -> None:
    tests = served.tests
    for what, source in HOSTILE.items():
        told = served.answer(source)
        shape = Shape(told.text)
        tests.same(f"{what}: a request", (200, [], 0), (told.status, shape.faults, shape.names.get("script", 0)))
        tests.holds(f"{what}: its text", source_text(shape) == shown(source).rstrip("\n"))


def try_at_once(served: Served) -> None:
    """Ten requests at once are all answered, and no more than two of them run at one time."""
    tests = served.tests
    told: list[Told] = []
    threads = [threading.Thread(target=lambda: told.append(served.answer(LOOP, turns=2000000))) for _ in range(10)]
    most = 0
    for thread in threads:
        thread.start()
    while any(thread.is_alive() for thread in threads):
        most = max(most, len(served.children()))
        time.sleep(0.002)
    tests.same("ten at once", [200] * 10, [one.status for one in told])
    tests.same("ten at once: their answers", 10, sum("turns bound=2000000" in one.text for one in told))
    tests.holds("ten at once: two run at one time", 1 <= most <= 2, most)


def try_endless(served: Served) -> None:
    tests = served.tests
    began = time.monotonic()
    told = served.answer(ENDLESS, turns=100000000)
    took = time.monotonic() - began
    tests.holds("an endless program", told.status == 200 and "ended after 10 seconds" in told.text, told)
    tests.holds("an endless program: its time", 9 < took < 25, took)
    told = served.answer(PRINTS, turns=100000)
    shape = Shape(told.text)
    printed = shape.texts.get("part part-output", "")
    tests.holds("an output without an end", "turns bound=100000" in told.text and " left out" in printed, told.text[:500])
    tests.holds("an output without an end: how much of it is shown", (1 << 18) <= len(printed) < (1 << 18) + 100, len(printed))


def try_broken_off(served: Served) -> None:
    """Connections that say nothing, or go away, hold nobody up."""
    tests = served.tests
    silent = [socket.create_connection(("127.0.0.1", served.port)) for _ in range(10)]
    gone = socket.create_connection(("127.0.0.1", served.port))
    head = b"POST /answer?turns=20000 HTTP/1.1\r\nHost: 127.0.0.1:%d\r\nContent-Length: %d\r\n\r\n" % (served.port, len(ENDLESS))
    gone.sendall(head + ENDLESS)
    gone.close()
    began = time.monotonic()
    told = served.answer(b"int main(void) { return 3; }\n")
    tests.holds("beside silent connections", told.status == 200 and time.monotonic() - began < 15, told.status)
    for one in silent:
        one.close()
    ends = time.monotonic() + 12
    while (served.children() or os.listdir(served.rooms)) and time.monotonic() < ends:
        time.sleep(0.05)


def try_interrupted(tests: Tests) -> None:
    """A server that is ended ends what it runs, and lets nothing begin that waits."""
    with serving(tests) as served:
        threads = [threading.Thread(target=ask_quietly, args=(served,)) for _ in range(6)]
        for thread in threads:
            thread.start()
        ends = time.monotonic() + 20
        while len(served.children()) < 2 and time.monotonic() < ends:
            time.sleep(0.01)
        running = served.children()
        served.process.send_signal(signal.SIGTERM)
        served.process.wait(10)
        for thread in threads:
            thread.join()
        tests.holds("interrupted: two ran", len(running) == 2, running)
        tests.same("interrupted: they run no longer", [], [pid for pid in running if not is_dead(pid)])
        tests.same("interrupted: nothing has begun since", [], those_with(served.rooms))
        tests.same("interrupted: no folder is left", [], os.listdir(served.rooms))


def ask_quietly(served: Served) -> None:
    with contextlib.suppress(OSError, http.client.HTTPException):
        served.answer(ENDLESS, turns=100000000)


def those_with(folder: str) -> list[str]:
    """The processes that have a word with this folder."""
    found = []
    for name in filter(str.isdecimal, os.listdir("/proc")):
        with contextlib.suppress(OSError):
            with open(f"/proc/{name}/cmdline", "rb") as file:
                if os.fsencode(folder) in file.read():
                    found.append(name)
    return found


def is_dead(pid: int) -> bool:
    with contextlib.suppress(OSError):
        with open(f"/proc/{pid}/stat", encoding="ascii", errors="replace") as file:
            return file.read().rpartition(")")[2].split()[0] == "Z"
    return True
