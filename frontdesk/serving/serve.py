"""`desk serve`: the report in a browser, on the loopback address alone. An upload stays in memory and is never written to disk."""

import re
import secrets
import socket
import sys
import threading
import time
import traceback
from collections import OrderedDict
from http.server import BaseHTTPRequestHandler, ThreadingHTTPServer
from typing import NamedTuple
from urllib.parse import quote, urlsplit

from frontdesk import enquiry, outputs
from frontdesk.page import report
from frontdesk.reading.mistakes import Mistakes, of_the_file
from frontdesk.serving import uploads
from frontdesk.studies import crew

ADDRESS = "127.0.0.1"
LARGEST = 4_000_000  # bytes of an upload: a workbook of 500 rows has a fortieth of it
MOST_DIGITS = 15  # of a length; no upload has so many bytes
KEPT, KEPT_FOR = 8, 3600  # reports that are kept to be looked at again and downloaded, and for how many seconds
MOST_AT_ONCE = 16  # connections
PATIENCE, UPLOAD_TIME = 20, 60  # seconds that a connection may say nothing, and that an upload may take
LONGEST_STAY = 150  # seconds that a connection may last, so that none that says a byte now and then keeps a seat
DRAINED = 64_000_000  # bytes of a refused upload that are let pass, so that the browser comes to read the answer
HEADERS = {
    "Content-Security-Policy": "default-src 'none'; style-src 'unsafe-inline'; img-src data:; form-action 'self'; base-uri 'none'; frame-ancestors 'none'",
    "X-Content-Type-Options": "nosniff", "Referrer-Policy": "same-origin", "Cache-Control": "no-store", "Cross-Origin-Opener-Policy": "same-origin",
    "Cross-Origin-Resource-Policy": "same-origin",
}  # fmt: skip
REPORT = re.compile(r"/report/([A-Za-z0-9_-]{20,60})(/download|/case)?")
BUSY = b"HTTP/1.1 503 Service Unavailable\r\nContent-Type: text/plain\r\nConnection: close\r\n\r\nThe desk has its hands full: try again.\n"
PAGE = "The front desk"
BAR = """
.around { display: flex; flex-wrap: wrap; gap: .3rem 1.5rem; margin: 0; padding: .6rem 1.5rem; background: var(--panel); }
@media print { .around { display: none; } }
"""
TOO_LARGE = "The upload has %s bytes, and at most %s are taken. A table of 500 cases has far less: is it the right file?"


class Kept(NamedTuple):
    name: str
    page: str
    case: bytes
    until: float


class Desk(ThreadingHTTPServer):
    """The server with its engine, the last reports, and how many are served at once."""

    daemon_threads = True
    allow_reuse_address = True

    def __init__(self, engine, port):
        super().__init__((ADDRESS, port), Handler)
        self.engine, self.kept, self.lock = engine, OrderedDict(), threading.Lock()
        self.seats, self.working = threading.BoundedSemaphore(MOST_AT_ONCE), threading.BoundedSemaphore(crew.processors())
        self.hosts = {"%s:%d" % (name, self.server_port) for name in (ADDRESS, "localhost")} | ({ADDRESS, "localhost"} if self.server_port == 80 else set())

    @property
    def address(self):
        return "http://%s:%d/" % (ADDRESS, self.server_port)

    def process_request(self, request, client_address):
        if self.seats.acquire(blocking=False):
            super().process_request(request, client_address)
        else:
            request.settimeout(1)
            try:
                request.sendall(BUSY)
            except OSError:
                pass
            self.shutdown_request(request)

    def process_request_thread(self, request, client_address):
        ended = threading.Timer(LONGEST_STAY, shut, (request,))
        ended.daemon = True
        ended.start()
        try:
            super().process_request_thread(request, client_address)
        finally:
            ended.cancel()
            self.seats.release()

    def handle_error(self, request, client_address):
        """A browser that goes away is nothing to tell."""
        if not isinstance(sys.exc_info()[1], (ConnectionError, TimeoutError)):
            super().handle_error(request, client_address)

    def keep(self, name, page, case):
        """Keeps a report under a name that cannot be guessed; the oldest goes."""
        token = secrets.token_urlsafe(24)
        with self.lock:
            self.kept[token] = Kept(name, page, case, time.monotonic() + KEPT_FOR)
            while len(self.kept) > KEPT:
                self.kept.popitem(last=False)
        return token

    def look_up(self, token):
        with self.lock:
            for old in [each for each, kept in self.kept.items() if kept.until < time.monotonic()]:
                del self.kept[old]
            return self.kept.get(token)


class Handler(BaseHTTPRequestHandler):
    """Answers GET of the page with the form and of reports, and POST of a file; nothing else."""

    protocol_version = "HTTP/1.1"
    timeout = PATIENCE

    def version_string(self):
        return "desk"

    def log_message(self, *_):
        """Nothing is told of what is asked for."""

    def do_GET(self):
        path = path_of(self.path)
        wanted = REPORT.fullmatch(path)
        if not self.known_host():
            return
        if path == "/":
            self.answer(200, report.environment().get_template("serve.html").render(most=LARGEST // 1_000_000))
        elif not wanted:
            self.refuse(404, "There is no such page: the desk has one, with a form.")
        else:
            self.show(wanted.group(1), wanted.group(2))

    do_HEAD = do_GET

    def show(self, token, part):
        kept = self.server.look_up(token)
        if kept is None:
            self.refuse(404, "This report is no longer kept: the last %d are, for an hour. Choose the file once more." % KEPT)
        elif part == "/case":
            self.answer(200, kept.case, "text/plain; charset=us-ascii", attachment(kept.name, ".case"))
        elif part == "/download":
            self.answer(200, kept.page, "text/html; charset=utf-8", attachment(kept.name, ".html"))
        else:
            self.answer(200, with_bar(kept.page, token))

    def do_POST(self):
        if not self.known_host() or not self.known_origin():
            return
        if path_of(self.path) != "/report":
            return self.refuse(404, "There is no such page: the desk has one, with a form.", drain=True)
        length = self.headers.get("Content-Length", "")
        if not length.isascii() or not length.isdigit() or len(length) > MOST_DIGITS or "Transfer-Encoding" in self.headers:
            return self.refuse(411, "The upload does not say how long it is.", drain=True)
        if int(length) > LARGEST:
            return self.refuse(413, TOO_LARGE % ("{:,}".format(int(length)), "{:,}".format(LARGEST)), drain=True)
        try:
            upload = uploads.parsed(self.headers.get("Content-Type"), self.body(int(length)))
        except uploads.NoForm as fault:
            return self.refuse(400, "This is no upload of the page's form: %s." % fault)
        self.judge(upload)

    def body(self, length):
        """So many bytes, within the time that an upload may take."""
        parts, until = [], time.monotonic() + UPLOAD_TIME
        while length:
            part = self.rfile.read1(min(length, 1 << 16))
            if not part or time.monotonic() > until:
                raise uploads.NoForm("it was cut off on its way")
            parts.append(part)
            length -= len(part)
        return b"".join(parts)

    def judge(self, upload):
        """Works out the report of what was sent and leads to it; what is wrong is told as on the command line."""
        name, source = chosen(upload.files)
        try:
            if source is None:
                raise of_the_file("", name)
            with self.server.working:
                answer = enquiry.asked(self.server.engine, name, source, "against" in upload.fields, "licensed-slip" in upload.fields)
                page = answer.page
        except Mistakes as mistakes:
            return self.refuse(422, *mistakes.lines(), name=name if source is not None else PAGE)
        except Exception:
            traceback.print_exc()
            return self.refuse(500, "This is a defect of the desk; what it tripped over stands where it was started.", name=name)
        token = self.server.keep(name, page, answer.findings.data)
        self.answer(303, "", headers={"Location": "/report/" + token})

    def known_host(self):
        """Whether the page was asked for by its own name: another name that leads here may be somebody else's page."""
        if self.headers.get("Host", "").lower() in self.server.hosts:
            return True
        self.refuse(421, "The desk answers to %s alone." % self.server.address, drain=True)
        return False

    def known_origin(self):
        origin = self.headers.get("Origin")
        if origin is None or origin.lower().removeprefix("http://") in self.server.hosts:
            return True
        self.refuse(403, "The form was sent from another page than the desk's own.", drain=True)
        return False

    def refuse(self, status, *messages, name=PAGE, drain=False):
        """A page with what is wrong; with drain the body that follows is let pass, unread and for a short time, and the connection closed."""
        self.close_connection = self.close_connection or drain
        self.answer(status, with_bar(report.refusal_page(name, messages)))
        if drain and self.command == "POST":
            self.let_pass()

    def let_pass(self):
        self.wfile.flush()
        left, until = DRAINED, time.monotonic() + PATIENCE
        try:
            self.connection.shutdown(socket.SHUT_WR)
            self.connection.settimeout(2)
            while left > 0 and time.monotonic() < until:
                part = self.connection.recv(1 << 16)
                if not part:
                    break
                left -= len(part)
        except OSError:
            pass

    def answer(self, status, content, kind="text/html; charset=utf-8", headers=()):
        data = content.encode("utf-8") if isinstance(content, str) else content
        self.send_response(status)
        for name, text in {**HEADERS, "Content-Type": kind, "Content-Length": str(len(data)), **dict(headers)}.items():
            self.send_header(name, text)
        if self.close_connection:
            self.send_header("Connection", "close")
        self.end_headers()
        if self.command != "HEAD":
            self.wfile.write(data)


def shut(connection):
    try:
        connection.shutdown(socket.SHUT_RDWR)
    except OSError:
        pass  # it has ended already


def path_of(target):
    """The path of what was asked for, without its query; nothing where it is no address."""
    try:
        return urlsplit(target).path
    except ValueError:
        return ""


def chosen(files):
    """The name and the source of what was sent: one file's bytes, or CSV files' by name. Where there is neither, words and nothing."""
    if not files:
        return "No file was chosen.", None
    if len(files) == 1:
        return files[0]
    if all(name.lower().endswith(".csv") for name, _ in files) and len({name.lower() for name, _ in files}) == len(files):
        return "CSV files", dict(files)
    return "%d files were chosen; expected one workbook, one case file, or the three files ship.csv, zones.csv and cases.csv." % len(files), None


def with_bar(page, token=""):
    """The same page with a bar above it, which leads back to the form and to the downloads; what is downloaded has none."""
    head, style, rest = page.partition("</style>")
    before, main, after = rest.partition("<main")
    return head + BAR + style + before + report.environment().get_template("around.html").render(token=token) + main + after


def attachment(name, ending):
    """The header that has a browser save a file under the upload's name."""
    stem = re.sub(r"\.[A-Za-z0-9]{1,5}$", "", name) or "report"
    plain = re.sub(r"[^A-Za-z0-9._ -]", "_", stem)
    return {"Content-Disposition": 'attachment; filename="%s%s"; filename*=UTF-8\'\'%s' % (plain, ending, quote(stem + ending, safe=""))}


def run(engine, port):
    """Serves until Ctrl-C; says where."""
    try:
        server = Desk(engine, port)
    except OSError as error:
        raise of_the_file("", "port %d cannot be had: %s. --port 0 takes a free one." % (port, outputs.reason(error))) from None
    with server:
        print("The desk is at %s (on this machine alone; Ctrl-C ends it)" % server.address, flush=True)
        server.serve_forever()
    return 0
