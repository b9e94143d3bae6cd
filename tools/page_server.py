"""For tools/page --listen: an editor on this machine alone, which runs the programs for each request.

Each request has a folder of its own, ten seconds for all that it asks, and waits until no two others run. What is typed
is a file's text or is checked: no word of a command comes from a request but a number of turns.
"""
import json
import re
import signal
import socket
import sys
import tempfile
import threading
import time
from contextlib import contextmanager
from http.server import BaseHTTPRequestHandler, ThreadingHTTPServer
from typing import Callable, Iterator, NamedTuple
from urllib.parse import parse_qsl, urlsplit

from explore_runs import HERE, Fault
from page_calls import Caller
from page_html import answer_html, no_answer, origin, part_of_page, whole_page
from page_runs import LONGEST_SCRIPT, LONGEST_SOURCE, MODES, Asked, Programs, Question
from page_text import escaped, tag

ADDRESS = "127.0.0.1"
SECONDS = 10.0  # of all that a request asks
MOST_MEMORY = 1 << 32  # bytes of a program's address space
AT_ONCE = 2
MOST_WAITING = 32  # connections at one time
LONGEST_WAIT = 120.0  # seconds for a place to run
MOST_ENDING = 5.0  # seconds for what runs to end, when the editor is ended
LONGEST_BODY = LONGEST_SOURCE + LONGEST_SCRIPT + 2  # a byte more of each is refused by the program itself
LONGEST_DROPPED = 1 << 24  # bytes of a longer body that are read, so that the answer is heard
NAME = "program.c"
HEADERS = {
    "Connection": "close", "Cache-Control": "no-store", "Referrer-Policy": "no-referrer",
    "X-Content-Type-Options": "nosniff", "X-Frame-Options": "DENY",
}


class Refusal(Exception):
    """A request that is not answered, with its status and why."""

    def __init__(self, status: int, why: str):
        super().__init__(why)
        self.status = status


# ---- the editor's page

class Example(NamedTuple):
    name: str
    what: str
    end: str


def topics() -> list[tuple[str, list[Example]]]:
    """The examples by topic, as their page lists them: `- [NAME](NAME.c), [script](NAME.script): WHAT. *END*`, in one line or more."""
    with open(f"{HERE}/../examples/README.md", encoding="utf-8") as file:
        parts = re.split(r"^## (.*)$", file.read(), flags=re.M)[1:]
    item = re.compile(r"^- \[(\w+)\]\(\1\.c\)(?:, \[script\]\(\1\.script\))?: (.*?)\.\s+\*([^*]*)\*$", re.M | re.S)
    found = [(title, [Example(*(" ".join(cell.split()) for cell in cells)) for cells in item.findall(text)]) for title, text in zip(parts[::2], parts[1::2])]
    return [(title, examples) for title, examples in found if examples]


def example_texts() -> dict[str, dict[str, str]]:
    """The source and the script of each example."""
    def text(name: str) -> str:
        try:
            with open(f"{HERE}/../examples/{name}", encoding="utf-8") as file:
                return file.read()
        except FileNotFoundError:
            return ""

    names = [example.name for _, examples in topics() for example in examples]
    return {name: {"source": text(f"{name}.c"), "script": text(f"{name}.script")} for name in names}


def example_buttons() -> str:
    groups = []
    for title, examples in topics():
        buttons = [
            tag("li", tag("button", escaped(name), type="button", data_example=name), " ", escaped(what.replace("`", "")))
            for name, what, _ in examples
        ]
        groups.append(tag("details", tag("summary", escaped(title)), tag("ul", *buttons)))
    return tag("nav", tag("h2", "Examples"), *groups, class_="examples", aria_label="Examples by topic")


def editor_page(programs: Programs) -> str:
    data = json.dumps(example_texts()).replace("<", "\\u003c")
    body = part_of_page("editor.html").replace("EXAMPLES", example_buttons())
    body += f'<script type="application/json" id="examples">{data}</script>'
    return whole_page("Valumeiro", body + origin(programs), ["page.js", "editor.js"], may_connect=True)


# ---- requests

class Handler(BaseHTTPRequestHandler):
    """Answers / with the editor, and a source that is posted to /answer with what the programs say of it."""

    timeout = 20  # seconds for the next bytes of a request
    server_version = "Valumeiro"
    sys_version = ""
    server: "Server"

    def do_GET(self) -> None:
        self.reply_to(self.get)

    def do_POST(self) -> None:
        self.reply_to(self.post)

    def reply_to(self, answer: Callable[[], str]) -> None:
        try:
            self.check_origin()
            self.send(200, answer(), "text/html")
        except Refusal as refusal:
            self.send(refusal.status, f"{refusal}\n", "text/plain")

    def check_origin(self) -> None:
        """Refuses what another page, or another name for this machine, sends here."""
        here = {f"{host}:{self.server.server_port}" for host in (ADDRESS, "localhost")}
        if self.headers.get("Host") not in here:
            raise Refusal(403, f"this page is at http://{ADDRESS}:{self.server.server_port}/ alone")
        if self.headers.get("Origin", "") not in {"", *(f"http://{host}" for host in here)}:
            raise Refusal(403, "another page's request is not answered")

    def get(self) -> str:
        if self.path.partition("?")[0] != "/":
            raise Refusal(404, "there is nothing here but /")
        return self.server.page

    def post(self) -> str:
        parts = urlsplit(self.path)
        if parts.path != "/answer":
            raise Refusal(404, "there is nothing here but /answer")
        said = dict(parse_qsl(parts.query, keep_blank_values=True))
        script_length = number(said, "script", 0, LONGEST_SCRIPT + 1)
        body = self.body()
        if script_length > len(body):
            raise Refusal(400, "the script is longer than what was sent")
        mode = said.get("mode", "run")
        if mode not in MODES:
            raise Refusal(400, f"mode is one of {', '.join(MODES)}")
        asked = Asked(body[script_length:], NAME, body[:script_length] or None, number(said, "turns", 0, 100000000) or None, mode)
        return self.server.answer(asked)

    def body(self) -> bytes:
        length = self.headers.get("Content-Length", "")
        if not re.fullmatch(r"[0-9]{1,12}", length):
            raise Refusal(411, "the length of what is sent is wanted (Content-Length)")
        if int(length) > LONGEST_BODY:
            left = min(int(length), LONGEST_DROPPED)
            while left > 0 and (more := self.rfile.read(min(left, 1 << 16))):
                left -= len(more)
            raise Refusal(413, f"a source has at most {LONGEST_SOURCE} bytes, and a script at most {LONGEST_SCRIPT}")
        return self.rfile.read(int(length))

    def send(self, status: int, text: str, kind: str) -> None:
        told = text.encode("utf-8", "backslashreplace")
        self.send_response(status)
        headers = {"Content-Type": f"{kind}; charset=utf-8", "Content-Length": str(len(told)), **HEADERS}
        for name, value in headers.items():
            self.send_header(name, value)
        self.end_headers()
        self.wfile.write(told)
        self.close_connection = True

    def log_message(self, *_words: object) -> None:
        """Requests are not written down."""


def number(said: dict[str, str], key: str, least: int, most: int) -> int:
    word = said.get(key, "0")
    if not re.fullmatch(r"[0-9]{1,9}", word, re.ASCII) or not least <= int(word) <= most:
        raise Refusal(400, f"{key} is a number from {least} to {most}")
    return int(word)


class Server(ThreadingHTTPServer):
    """Serves the editor on 127.0.0.1, to so many connections at one time."""

    daemon_threads = True
    request_queue_size = 64

    def __init__(self, port: int, programs: Programs):
        self.programs = programs
        self.page = editor_page(programs)
        self.places = threading.BoundedSemaphore(AT_ONCE)
        self.connections = threading.BoundedSemaphore(MOST_WAITING)
        self.callers: set[Caller] = set()
        self.is_ended = False
        super().__init__((ADDRESS, port), Handler)

    def server_bind(self) -> None:
        """(Without asking a name server what this machine is called.)"""
        socket.socket.setsockopt(self.socket, socket.SOL_SOCKET, socket.SO_REUSEADDR, 1)
        self.socket.bind(self.server_address)
        self.server_address = self.socket.getsockname()
        self.server_name, self.server_port = ADDRESS, self.server_address[1]

    def process_request(self, request, client_address) -> None:
        self.connections.acquire()
        super().process_request(request, client_address)

    def process_request_thread(self, request, client_address) -> None:
        try:
            super().process_request_thread(request, client_address)
        finally:
            self.connections.release()

    def handle_error(self, request, client_address) -> None:
        """A connection that broke off is nobody's fault; anything else is told."""
        if not isinstance(sys.exc_info()[1], OSError):
            super().handle_error(request, client_address)

    @contextmanager
    def caller(self) -> Iterator[Caller]:
        """A folder of its own, and who calls programs there, when there is a place to run."""
        if not self.places.acquire(timeout=LONGEST_WAIT):
            raise Refusal(503, "too many others run; try again")
        try:
            if self.is_ended:
                raise Refusal(503, "the editor was ended")
            with tempfile.TemporaryDirectory(prefix="valumeiro-", ignore_cleanup_errors=True) as room:
                # (a program with checks at run time maps terabytes)
                caller = Caller(room, room, SECONDS, None if self.programs.has_checks else MOST_MEMORY)
                self.callers.add(caller)
                try:
                    yield caller
                finally:
                    self.callers.discard(caller)
        finally:
            self.places.release()

    def answer(self, asked: Asked) -> str:
        """What the programs say, as HTML."""
        try:
            with self.caller() as caller:
                return answer_html(Question(self.programs, asked, caller, is_shut=True).answer())
        except (Fault, OSError) as fault:
            return no_answer(asked, str(fault))

    def end(self) -> None:
        """Ends what runs still, and lets nothing more begin."""
        self.is_ended = True
        ends = time.monotonic() + MOST_ENDING
        while self.callers and time.monotonic() < ends:
            for caller in list(self.callers):
                caller.end()
            time.sleep(0.02)


def listen(port: int, programs: Programs) -> int:
    """Serves until it is interrupted."""
    try:
        server = Server(port, programs)
    except OSError as error:
        raise Fault(f"port {port} can't be listened to: {error.strerror}") from error

    def stop(*_: object) -> None:
        raise KeyboardInterrupt

    signal.signal(signal.SIGTERM, stop)
    print(f"page: http://{ADDRESS}:{server.server_port}/ (Ctrl-C ends it)", flush=True)
    try:
        server.serve_forever()
    except KeyboardInterrupt:
        pass
    finally:
        server.end()
        server.server_close()
    return 0
