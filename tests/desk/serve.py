"""Holds `desk serve` by plain requests: the form, reports, downloads, wrong files, and what it does not answer; nothing that is sent gets to the disk."""

import http.client
import os
import re
import secrets
import shutil
import socket
import subprocess
import sys
import tempfile
import threading
import time
from pathlib import Path

sys.path.insert(0, str(Path(__file__).resolve().parent))

import seeds  # noqa: E402
from frontdesk import enquiry  # noqa: E402
from frontdesk.figures import engine  # noqa: E402
from frontdesk.reading import binding, casefile, commas, tables  # noqa: E402
from frontdesk.reading.mistakes import Mistakes  # noqa: E402
from frontdesk.serving import serve, uploads  # noqa: E402
from tally import Tally  # noqa: E402

ROOT = seeds.ROOT
EXAMPLES = ROOT / "examples"
tally = Tally()


class Server:
    """`./desk serve` on a free port, with a folder for what it might write."""

    def __init__(self, scratch):
        self.process = subprocess.Popen([str(ROOT / "desk"), "serve", "--port", "0"], stdout=subprocess.PIPE, stderr=subprocess.PIPE, cwd=scratch,
                                        env={**os.environ, "TMPDIR": str(scratch), "HOME": str(scratch)})  # fmt: skip
        line = self.process.stdout.readline().decode()
        self.port = int(re.search(r"127\.0\.0\.1:(\d+)/", line).group(1))

    def ask(self, method, path, body=None, headers=()):
        """Status, headers and text of an answer."""
        connection = http.client.HTTPConnection("127.0.0.1", self.port, timeout=30)
        try:
            connection.request(method, path, body, dict(headers))
            answer = connection.getresponse()
            return answer.status, dict(answer.getheaders()), answer.read().decode("utf-8", "replace")
        finally:
            connection.close()

    def send(self, files, fields=(), headers=()):
        kind, body = form(files, fields)
        return self.ask("POST", "/report", body, {"Content-Type": kind, **dict(headers)})

    def shown(self, files, fields=()):
        """The report that an upload leads to, and its path."""
        status, headers, _ = self.send(files, fields)
        tally.same(status, 303, "%s: an upload leads to its report" % [name for name, _ in files])
        path = headers.get("Location", "/")
        return self.ask("GET", path)[2], path


def form(files, fields=()):
    """A form as browsers send it."""
    mark = "----desk" + secrets.token_hex(8)
    parts = []
    for name, content in files:
        name = name.replace('"', "%22")
        parts.append(b'Content-Disposition: form-data; name="file"; filename="%s"\r\nContent-Type: application/octet-stream\r\n\r\n%s'
                % (name.encode(), content))
    parts += [b'Content-Disposition: form-data; name="%s"\r\n\r\n%s' % (name.encode(), text.encode()) for name, text in dict(fields).items()]
    body = b"".join(b"--%s\r\n%s\r\n" % (mark.encode(), part) for part in parts) + b"--%s--\r\n" % mark.encode()
    return "multipart/form-data; boundary=" + mark, body


def good(server, sheets, library):
    """Workbook, CSV files and case file: the same report as on the command line."""
    status, headers, page = server.ask("GET", "/")
    tally.that(status == 200 and '<input type="file"' in page and 'method="post"' in page and "<script" not in page, "the page has a form")
    policy = headers.get("Content-Security-Policy", "")
    tally.that("default-src 'none'" in policy and "form-action 'self'" in policy and "script" not in policy, "no script and nothing from elsewhere", policy)
    tally.that(headers.get("Cache-Control") == "no-store" and headers.get("X-Content-Type-Options") == "nosniff", "nothing is cached or guessed at")
    csvs = list(commas.written(sheets).items())
    case = (EXAMPLES / "timber-carrier.case").read_bytes()
    for files, source in (([("timber.xlsx", binding.bound(sheets))], binding.bound(sheets)), (csvs, dict(csvs)), ([("timber.case", case)], case)):
        name = files[0][0] if len(files) == 1 else "CSV files"
        page, path = server.shown(files)
        wanted = enquiry.asked(library, name, source).page
        status, headers, download = server.ask("GET", path + "/download")
        tally.that(status == 200 and download == wanted, "%s: the download is the command line's report" % name)
        tally.that('attachment; filename="' in headers.get("Content-Disposition", "")
                and headers["Content-Disposition"].split('"')[1].endswith(".html"), "it has a file's name")
        tally.that(page.replace(serve.BAR, "").replace(re.search(r"<nav class=\"around\".*?</nav>\n?", page, re.S).group(), "") == wanted,
                "%s: the page is the same with a bar" % name)
        tally.that('href="%s/download"' % path in page and 'href="/"' in page, "the bar leads to the download and back")
        tally.same(server.ask("GET", path + "/case")[2].encode(), case, "%s: its case file" % name)
    page, _ = server.shown([("timber.case", case)], {"licensed-slip": "yes"})
    tally.that("not proved" in page or "slip" in page.lower(), "with the slip")
    sheet = commas.written(sheets)
    sheet["cases.csv"] = re.sub(rb",0\.(\d+),", rb",0.\g<1>00001,", sheet["cases.csv"], count=1)
    tally.same(server.send(list(sheet.items()))[0], 422, "a number that is not whole")
    page, _ = server.shown(list(sheet.items()), {"against": "yes"})
    tally.that("<strong>1 number" in page, "rounded against the ship, and said")


def wrong(server, sheets, library):
    """Wrong files get the command line's words with status 422, and every name is escaped."""
    bad = commas.written(sheets)
    bad["cases.csv"] = bad["cases.csv"].replace(b"B/2", b"B/3", 2)
    book = binding.bound(sheets)
    for what, files, source in (
        ("no workbook at all", [("notes.docx", b"\x00\x01 nothing")], b"\x00\x01 nothing"), ("a bad table", list(bad.items()), bad),
        ("a workbook cut off", [("cut.xlsx", book[:3000])], book[:3000]), ("an empty file", [("empty.case", b"")], b""),
        ("a refused case file", [("bad.case", b"01\n")], b"01\n"), ("a PDF", [("a.pdf", b"%PDF-1.4")], b"%PDF-1.4"),
                ("one CSV file", [("ship.csv", bad["ship.csv"])], bad["ship.csv"]),
    ):  # fmt: skip
        name = files[0][0] if len(files) == 1 else "CSV files"
        try:
            enquiry.asked(library, name, source)
            words = ["nothing is wrong"]
        except Mistakes as mistakes:
            words = mistakes.lines()
        status, _, page = server.send(files)
        listed = [unescaped(item) for item in re.findall(r"<li>(.*?)</li>", page, re.S)]
        tally.that(status == 422 and listed == words, "%s: the same words" % what, status, listed, words)
    odd = '<img src=x onerror=alert(1)>".case'
    status, _, page = server.send([(odd, b"01\n")])
    tally.that(status == 422 and "<img" not in page and "&lt;img" in page, "a file's name is escaped")
    page, path = server.shown([(odd, (EXAMPLES / "printed.case").read_bytes())])
    tally.that("<img" not in page and "&lt;img" in page, "in the report too")
    disposition = server.ask("GET", path + "/download")[1]["Content-Disposition"]
    tally.that("\n" not in disposition and disposition.count('"') == 2, "and in the download's name", disposition)
    for what, files in (("no file", []), ("a file without a name", [("", b"")]), ("two workbooks", [("a.xlsx", book), ("b.xlsx", book)])):
        status, _, page = server.send(files)
        tally.that(status == 422 and "chosen" in page, what, status)


def unescaped(text):
    for sign, code in (("<", "&lt;"), (">", "&gt;"), ('"', "&#34;"), ("'", "&#39;"), ("&", "&amp;")):
        text = text.replace(code, sign)
    return text


def refused(server):
    """Another host's name, another page's form, other paths, too large, no length, no form, cut off."""
    case = [("printed.case", (EXAMPLES / "printed.case").read_bytes())]
    for host in ("evil.example", "127.0.0.1", "127.0.0.1:1", "localhost.evil.example:%d" % server.port, ""):
        tally.same(server.ask("GET", "/", headers={"Host": host})[0], 421, "the name %r" % host)
    tally.same(server.ask("GET", "/", headers={"Host": "localhost:%d" % server.port})[0], 200, "localhost")
    for origin in ("http://evil.example", "null", "https://127.0.0.1:%d" % server.port, "http://127.0.0.1:1"):
        tally.same(server.send(case, headers={"Origin": origin})[0], 403, "the origin %r" % origin)
    tally.same(server.send(case, headers={"Origin": "http://127.0.0.1:%d" % server.port})[0], 303, "its own origin")
    for path in ("/report", "/report/", "/../desk", "/frontdesk/serve.py", "/report/" + "x" * 32, "/report/" + "x" * 32 + "/case", "/%2e%2e/"):
        tally.same(server.ask("GET", path)[0], 404, "GET %s" % path)
    tally.same(server.ask("POST", "/", b"x")[0], 404, "POST elsewhere")
    tally.same(server.ask("PUT", "/report", b"x")[0], 501, "another method")
    tally.same(server.ask("HEAD", "/")[::2], (200, ""), "HEAD")
    status, _, page = server.send([("big.xlsx", b"x" * 4_000_001)])
    tally.that(status == 413 and "4,000,000 are taken" in page, "too large", status)
    tally.same(server.send([("nearly.xlsx", b"x" * 3_999_000)])[0], 422, "nearly too large")
    tally.same(server.ask("POST", "/report", iter([b"x"]), {"Transfer-Encoding": "chunked"})[0], 411, "no length")
    tally.same(server.ask("POST", "/report", b"x=1", {"Content-Type": "application/x-www-form-urlencoded"})[0], 400, "no form with a file")
    kind, body = form(case)
    tally.same(server.ask("POST", "/report", body[:-30], {"Content-Type": kind})[0], 400, "a form cut off")


def nonsense(server):
    """Requests that no browser sends are answered in words too, and nothing is told where the desk was started."""
    host = b"Host: 127.0.0.1:%d\r\n" % server.port
    for what, request, status in (
        ("a length of 5,000 digits", b"POST /report HTTP/1.1\r\n" + host + b"Content-Length: " + b"9" * 5_000 + b"\r\n\r\n", b"411"),
        ("an address that is none", b"POST http://[x/report HTTP/1.1\r\n" + host + b"Content-Length: 0\r\n\r\n", b"404"),
    ):
        with socket.create_connection(("127.0.0.1", server.port), timeout=10) as plain:
            plain.sendall(request)
            tally.that(plain.recv(1 << 16).startswith(b"HTTP/1.1 " + status), what)


def huge_is_not_read(server):
    """An upload that says it has a gigabyte is answered before it comes."""
    with socket.create_connection(("127.0.0.1", server.port), timeout=10) as plain:
        plain.sendall(b"POST /report HTTP/1.1\r\nHost: 127.0.0.1:%d\r\nContent-Type: multipart/form-data; boundary=x\r\nContent-Length: 1000000000\r\n\r\n"
                % server.port)
        begun, answer = time.monotonic(), plain.recv(1 << 16)
        tally.that(answer.startswith(b"HTTP/1.1 413") and time.monotonic() - begun < 5, "too large is told before it is read", answer[:60])


def many(server, sheets, library):
    """Uploads at the same time each get their own report; the last eight are kept."""
    wanted, found = {}, {}
    for name in ("printed", "coaster", "reefer", "night-ferry", "timber-carrier", "day-boat"):
        data = (EXAMPLES / (name + ".case")).read_bytes()
        wanted[name] = enquiry.asked(library, name + ".case", data).page

    def one(name):
        path = server.send([(name + ".case", (EXAMPLES / (name + ".case")).read_bytes())])[1]["Location"]
        found[name] = server.ask("GET", path + "/download")[2]

    threads = [threading.Thread(target=one, args=(name,)) for name in wanted]
    for thread in threads:
        thread.start()
    for thread in threads:
        thread.join()
    tally.that(found == wanted, "six at a time")
    case = [("printed.case", (EXAMPLES / "printed.case").read_bytes())]
    paths = [server.send(case)[1]["Location"] for _ in range(9)]
    tally.same([server.ask("GET", path)[0] for path in paths], [404] + [200] * 8, "the last eight are kept")


def crowd(server):
    """More connections than seats: the others are told to come back, and it goes on afterwards."""
    held = [socket.create_connection(("127.0.0.1", server.port), timeout=10) for _ in range(serve.MOST_AT_ONCE)]
    time.sleep(0.3)
    with socket.create_connection(("127.0.0.1", server.port), timeout=10) as late:
        tally.that(late.recv(1 << 12).startswith(b"HTTP/1.1 503"), "one too many is told so")
    for each in held:
        each.close()
    time.sleep(0.3)
    tally.same(server.ask("GET", "/")[0], 200, "it goes on")


def stays(library):
    """A connection that says nothing whole is ended in time."""
    serve.LONGEST_STAY = 0.3
    with serve.Desk(library, 0) as desk:
        threading.Thread(target=desk.serve_forever, daemon=True).start()
        with socket.create_connection(("127.0.0.1", desk.server_port), timeout=5) as slow:
            slow.sendall(b"GET / HTTP/1.1\r\nX: ")
            tally.same(slow.recv(1), b"", "a connection that stays is ended")
        desk.shutdown()


def gone(server):
    """Browsers that go away in the middle of an answer or of an upload."""
    path = server.send([("container.case", (EXAMPLES / "container-ship.case").read_bytes())])[1]["Location"]
    kind, body = form([("a.case", b"01\n" * 300_000)])
    for request in (b"GET %s HTTP/1.1\r\nHost: 127.0.0.1:%d\r\n\r\n" % (path.encode(), server.port),
                    b"POST /report HTTP/1.1\r\nHost: 127.0.0.1:%d\r\nContent-Type: %s\r\nContent-Length: %d\r\n\r\n"
                            % (server.port, kind.encode(), len(body)) + body[:200_000]):  # fmt: skip
        for _ in range(4):
            with socket.create_connection(("127.0.0.1", server.port), timeout=10) as plain:
                plain.setsockopt(socket.SOL_SOCKET, socket.SO_LINGER, b"\1\0\0\0\0\0\0\0")
                plain.sendall(request)
                time.sleep(0.02)
    tally.same(server.ask("GET", path)[0], 200, "it goes on when browsers go away")


def listens_here_alone(server):
    addresses = set()
    for line in Path("/proc/net/tcp").read_text().splitlines()[1:]:
        address, port = line.split()[1].split(":")
        if int(port, 16) == server.port and line.split()[3] == "0A":
            addresses.add(address)
    tally.same(addresses, {"0100007F"}, "it listens on the loopback address alone")


def parsing():
    kind, body = form([("a.case", b"\r\n--x\r\n"), ("C:\\b.case", b"")], {"against": "yes"})
    upload = uploads.parsed(kind, body)
    tally.same((upload.files, upload.fields), ([("a.case", b"\r\n--x\r\n"), ("b.case", b"")], {"against": "yes"}), "a form is read byte by byte")
    tally.same(uploads.parsed(*form([('a"b.case', b"x")])).files, [('a"b.case', b"x")], "a quotation mark in a name")
    for what, kind, body in (("no type", None, b""), ("no boundary", "multipart/form-data", b""), ("nothing", "multipart/form-data; boundary=x", b""),
                             ("many parts", "multipart/form-data; boundary=x", b"--x\r\n" * 100 + b"--x--")):  # fmt: skip
        try:
            uploads.parsed(kind, body)
            tally.that(False, "%s is no form" % what)
        except uploads.NoForm:
            tally.that(True, what)


def main():
    scratch = Path(tempfile.mkdtemp(prefix="serve."))
    library = engine.load()
    sheets = tables.sheets_of(casefile.parse((EXAMPLES / "timber-carrier.case").read_bytes()))
    server = Server(scratch)
    try:
        parsing()
        good(server, sheets, library)
        wrong(server, sheets, library)
        refused(server)
        huge_is_not_read(server)
        nonsense(server)
        stays(library)
        many(server, sheets, library)
        listens_here_alone(server)
        gone(server)
        crowd(server)
        tally.same(sorted(scratch.rglob("*")), [], "nothing is written to disk")
        files = [os.readlink("/proc/%d/fd/%s" % (server.process.pid, number)) for number in os.listdir("/proc/%d/fd" % server.process.pid)]
        tally.same([name for name in files if name.startswith("/") and not name.startswith("/dev/")], [], "no file is open")
        tally.that(server.process.poll() is None, "it still runs")
    finally:
        server.process.terminate()
        told = server.process.communicate(timeout=20)[1]
        shutil.rmtree(scratch)
    tally.same(told, b"", "nothing on standard error")
    return tally.close()


sys.exit(main())
