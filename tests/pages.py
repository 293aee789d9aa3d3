#!/usr/bin/env python3
"""Tests the operator's pages in headless Chromium: they must show what was posted, what the sink has, and what `totxegun status` prints.

    tests/pages.py TOTXEGUN [FOLDER]

Senders post to a service with a SQLite sink; some names are markup, and some posts and points are refused. Then the pages as the browser
has them, with and without their script, are compared with what was posted, and each total with the database. No sender's name may run as
a script or become an element, nothing may be loaded from elsewhere, the browser must report no error, and no part may be wider than a
phone. A reader's selection must stay, a reader who has scrolled must see that the service does not answer, no short word may be broken,
and tables and plots must have captions. With FOLDER, a picture of each page at 1280 and 390 pixels, light and dark, is
left there. Without
Chromium everything is left out, with status 77.

Each line is a check; the last line counts passes and failures. The status is 0 if none failed.
"""
import contextlib
import html
import html.parser
import http.client
import http.server
import json
import os
import re
import shutil
import sqlite3
import subprocess
import sys
import tempfile
import threading
import time
from collections.abc import Callable, Iterator, Sequence
from typing import Any

from testing.checks import Checks
from testing.service import JSON, Service, ask, in_json, wait_until
from tooling.files import write

HOSTILE = '"><script>document.title="owned"</script><img src=x onerror="document.title=1">\'&amp;\u202e'
LIGHT, DARK = (), ("--blink-settings=preferredColorScheme=0",)
WIDE, NARROW, PHONE = 1280, 680, 390
MOST_BYTES = 60_000
SECONDS = 60
# Within the last hours.
START = time.time_ns() // 10**9 * 10**9 - 3_700 * 10**9


def chromium() -> str | None:
    return next((name for name in ("chromium", "chromium-browser", "google-chrome") if shutil.which(name)), None)


class Page(html.parser.HTMLParser):
    """The elements, tables by their headings, and texts of a page."""

    def __init__(self, text: str) -> None:
        super().__init__()
        self.elements: list[str] = []
        self.tables: dict[str, list[list[str]]] = {}
        self.links: list[str] = []
        self.texts: list[str] = []
        self.handlers: list[str] = []
        self.scopes: list[str | None] = []
        self.classes: list[str | None] = []
        self.heading: str = None
        self.where: str = None
        self.feed(text)

    def handle_starttag(self, tag: str, attrs: list[tuple[str, str | None]]) -> None:
        self.elements.append(tag)
        self.handlers += [name for name, _ in attrs if name.startswith("on") or name == "style"]
        self.scopes += [dict(attrs).get("scope")] if tag == "th" else []
        self.classes += [value for name, value in attrs if name == "class"]
        self.links += [value for name, value in attrs if name in ("href", "src", "action")]
        self.where = tag if tag in ("h2", "td", "title") else self.where
        if tag == "h2":
            self.heading = ""
        if tag == "tr":
            self.tables.setdefault(self.heading, []).append([])
        if tag == "td":
            self.tables[self.heading][-1].append("")

    def handle_endtag(self, tag: str) -> None:
        if tag == self.where:
            self.where = None

    def handle_data(self, data: str) -> None:
        self.texts.append(data.strip())
        if self.where == "h2":
            self.heading += data
        if self.where == "td":
            self.tables[self.heading][-1][-1] += data

    def rows_of(self, heading: str) -> Any:
        return [row for row in self.tables.get(heading, []) if row]


class Browser:
    def __init__(self, folder: str, port: int) -> None:
        self.folder, self.place = folder, f"http://127.0.0.1:{port}"

    def run(self, *words: str, path: str = "/", width: int = WIDE, height: int = 2400, place: str | None = None) -> str:
        command = [chromium(), "--headless", "--no-sandbox", "--disable-gpu", "--hide-scrollbars", "--disable-dev-shm-usage",
                 f"--user-data-dir={self.folder}/chromium", f"--window-size={width},{height}", *words, place or self.place + path]
        return subprocess.run(command, capture_output=True, timeout=SECONDS, check=False).stdout.decode(errors="replace")

    def complaints(self, path: str) -> list[str]:
        """What the browser writes to its console."""
        command = [chromium(), "--headless", "--no-sandbox", "--disable-gpu", "--disable-dev-shm-usage", "--enable-logging=stderr",
                   f"--user-data-dir={self.folder}/chromium", "--dump-dom", "--virtual-time-budget=6000", self.place + path]
        said = subprocess.run(command, capture_output=True, timeout=SECONDS, check=False).stderr.decode(errors="replace")
        return [line for line in said.splitlines() if "CONSOLE" in line]

    def dom(self, path: str = "/", *words: str) -> str:
        return self.run("--dump-dom", "--virtual-time-budget=6000", *words, path=path)

    def picture(self, name: str, path: str, width: int, height: int, *words: str) -> None:
        self.run(f"--screenshot={name}", *words, path=path, width=width, height=height)


def point(start: int, value: int, attributes: dict[str, str]) -> dict[str, Any]:
    return {"startTimeUnixNano": str(start), "timeUnixNano": str(start + 10**9), "asInt": str(value),
            "attributes": [{"key": key, "value": {"stringValue": text}} for key, text in attributes.items()]}


def request(name: str, points: list[dict[str, Any]], unit: str = "1", resource: dict[str, Any] | str = "shop",
            temporality: int = 1) -> dict[str, Any]:
    data = {"aggregationTemporality": temporality, "isMonotonic": True, "dataPoints": points}
    resource = {"attributes": [{"key": "service.name", "value": {"stringValue": resource}}]}
    return {"resourceMetrics": [{"resource": resource, "scopeMetrics": [{"scope": {"name": "s"}, "metrics": [
        {"name": name, "unit": unit, "sum": data}]}]}]}


def post(service: Service, body: dict[str, Any] | bytes, sender: str = "shop-1", path: str = "/v1/metrics") -> Sequence[Any]:
    body = body if isinstance(body, bytes) else json.dumps(body).encode()
    return ask(service.listen, "POST", path, body, {"Content-Type": JSON, "x-sender": sender})


def post_all(service: Service) -> Any:
    """So many posts of each kind: those that are taken, and those that are not."""
    for step in range(5):
        for route in ("/cart", "/search"):
            post(service, request("http.requests", [point(START + step * 10**9, 1_000_000 + step, {"route": route})], resource=route))
    post(service, request(HOSTILE, [point(START, 7, {HOSTILE: HOSTILE})], HOSTILE, HOSTILE), "shop-2")
    post(service, in_json([("wait", START, START + 10, ((1, 2, 3, 4), 55))]), "shop-2")
    foreign = request("c", [point(START, 1, {}), point(START, 2, {})], temporality=2)
    foreign["resourceMetrics"][0]["scopeMetrics"][0]["metrics"].append({"name": "g", "gauge": {"dataPoints": [{}, {}, {}]}})
    answer = post(service, foreign, "shop-2")[1]
    post(service, request("http.requests", [point(START, 1, {"route": "/cart"})], resource="/cart"))
    other = post(service, request("http.requests", [point(START + 10**12, 1, {"route": "/cart"})], resource="/cart"), "thief")[1]
    post(service, b"no JSON", "<script>a</script>")
    post(service, {}, "-", "/v1/traces")
    return json.loads(answer)["partialSuccess"], json.loads(other)["message"]


def sent(service: Service, path: str) -> Page:
    """A page as a browser without script has it."""
    return Page(service.asked("GET", path)[1].decode())


def grouped(number: int) -> str:
    return f"{number:,}"


def look_at_answers(checks: Checks, answer: Any, other: Any) -> None:
    checks.same("what is not taken is counted by cause", ("5", 'points outside the profile: 3 gauges, 2 cumulative sums: see '
                'docs/OPERATING.md, "Senders"'), (answer["rejectedDataPoints"], answer["errorMessage"]))
    checks.same("another's series is named", "other writer: point 0: `http.requests` {route=/cart} is another sender's, so ",
                other.split("20", maxsplit=1)[0])


def look_at_overview(checks: Checks, page: Page, how: str) -> None:
    refused = {(row[0], row[1], row[2]) for row in page.rows_of("Refused posts")}
    wanted = {("shop-1", "400", "1"), ("thief", "400", "1"), ("- (who names none)", "400", "1"), ("- (who names none)", "404", "1")}
    checks.same(f"{how}: refusals are by sender and status, with their counts", wanted, refused)
    checks.true(f"{how}: each says what to do", all(row[-1] for row in page.rows_of("Refused posts")), page.rows_of("Refused posts"))
    foreign = {tuple(row[:3]) for row in page.rows_of("Points not taken")}
    checks.same(f"{how}: points not taken are by sender and cause", {("shop-2", "gauge", "3"), ("shop-2", "cumulative_sum", "2")}, foreign)
    senders = {row[0]: row[2:] for row in page.rows_of("Senders, by their last post")}
    checks.same(f"{how}: senders have their posts", {"shop-1": ["10", "1"], "shop-2": ["3", "0"], "thief": ["0", "1"],
                "- (who names none)": ["0", "2"]}, senders)


def look_at_words(checks: Checks, program: str, service: Service, page: Page) -> None:
    """The command and the page have their words from the same status."""
    text = subprocess.run([program, "status", "--data", service.data], capture_output=True, text=True, check=False).stdout
    lines = [" ".join(line.split()) for line in text.splitlines()]
    missing = [title for title in page.tables if title not in lines]
    checks.same("the command has the page's tables", [], missing)
    of_page = [" ".join(cell or "-" for cell in row[:3]) for title in page.tables for row in page.rows_of(title)
               if title in ("Refused posts", "Points not taken")]
    checks.same("with the same rows", [], [row for row in of_page if not any(line.startswith(row) for line in lines)])


def look_at_series(checks: Checks, browser: Browser, database: str) -> Any:
    page = Page(browser.dom("/series"))
    with contextlib.closing(sqlite3.connect(f"file:{database}?mode=ro", uri=True)) as connection:
        stored = connection.execute("select name, attributes, total, count from totals").fetchall()
    wanted = sorted((name, grouped(total), grouped(count) if count is not None else "") for name, _, total, count in stored)
    shown = [text.replace("\u202e", " ") for text, *_ in wanted]
    found = sorted((row[0], row[2], row[4]) for row in page.rows_of(f"{len(stored)} of {len(stored)} series"))
    checks.same("each series has the database's total", sorted(zip(shown, *list(zip(*wanted))[1:])), found)
    some = Page(browser.dom("/series?name=HTTP&attribute=route%3D%2Fcart"))
    checks.same("a search finds by parts of name and attribute", [["http.requests", "route=/cart", grouped(5_000_010)]],
                [row[:3] for row in some.rows_of("1 of 4 series")])
    link = next(link for link in some.links if link.startswith("series?id="))
    one = Page(browser.dom(f"/{link}"))
    checks.true("a series by itself has its total", grouped(5_000_010) in one.texts, one.texts)
    look_at_hours(checks, one, database)
    return [page, some, one], link


def look_at_hours(checks: Checks, page: Page, database: str) -> None:
    """A bar an hour, where the sink has hours."""
    with contextlib.closing(sqlite3.connect(f"file:{database}?mode=ro", uri=True)) as connection:
        if not connection.execute("select 1 from sqlite_schema where name = 'by_hour'").fetchone():
            print("note: the sink has no hours", flush=True)
            return
        stored = connection.execute("select strftime('%Y-%m-%d %H:00', hour), total from by_hour where name = 'http.requests' and "
                                    "attributes like '%/cart%' order by hour desc").fetchall()
    wanted = [[hour, grouped(total)] for hour, total in stored]
    checks.same("a series has the database's hours", wanted, [row[:2] for row in page.rows_of("The last 48 hours")])
    checks.same("48 of them are plotted", 48, page.elements.count("rect"))


def look_at_safety(checks: Checks, service: Service, browser: Browser, pages: Any) -> None:
    """Of pages as the browser has them, and as they are sent."""
    sent = [service.asked("GET", path)[1] for path in ("/", "/series", "/page.css", "/page.js")]
    checks.true(f"a page is under {MOST_BYTES} bytes with style and script", sum(map(len, sent)) < MOST_BYTES, list(map(len, sent)))
    titles = [text for page in pages for text in page.texts if text.strip() in ("owned", "1")]
    scripts = {page.elements.count("script") for page in pages}
    checks.true("no name became an element or ran", scripts <= {0, 1} and not any("img" in page.elements for page in pages), scripts)
    checks.true("no title was changed", "owned" not in titles, titles)
    checks.same("there are no handlers and no styles within", [], [name for page in pages for name in page.handlers])
    away = [link for page in pages for link in page.links if re.match(r"\w+:|//", link) and link != "data:,"]
    checks.same("nothing leads or loads elsewhere", [], away)


def look_at_rules(checks: Checks, service: Service) -> None:
    """What the address refuses of other pages holds for its own too."""
    def status(path: str = "/", **headers: str) -> bytes | int | None:
        names = {name.replace("_", "-"): value for name, value in headers.items()}
        return ask(service.operate, "GET", path, headers=names)[0]

    asked = [status(), status("/series", Sec_Fetch_Site="same-origin"), status(Sec_Fetch_Site="cross-site"),
             status(Sec_Fetch_Site="same-site"), status(Origin="null"), status(Host="evil.example:4319"),
             status("/status", Sec_Fetch_Site="same-origin"), ask(service.operate, "POST", "/")[0]]
    checks.same("only our own pages lead here, and only to pages", [200, 200, 403, 403, 403, 403, 403, 405], asked)


@contextlib.contextmanager
def between(service: Service, script: str = "", is_answered: Callable[[int], bool] = lambda _: True) -> Iterator[int]:
    """The port of a proxy that puts a script into the pages. `is_answered` is asked how often `/` was asked for before."""
    class Between(http.server.BaseHTTPRequestHandler):
        asked = -1

        def do_GET(self) -> None:
            if self.path == "/":
                Between.asked += 1
                if not is_answered(Between.asked):
                    self.send_error(503)
                    return
            connection = http.client.HTTPConnection("127.0.0.1", service.operate, timeout=20)
            connection.request("GET", self.path, headers=dict(self.headers))
            answer = connection.getresponse()
            body = answer.read()
            if script and self.path == "/":
                body = body.replace(b"</body>", f"<script>{script}</script></body>".encode())
            self.send_response(answer.status)
            for name, value in answer.getheaders():
                if not script or name.lower() not in ("content-security-policy", "content-length"):
                    self.send_header(name, value)
            self.end_headers()
            self.wfile.write(body)
            connection.close()

        def log_message(self, *words: str) -> None:
            pass

    with http.server.ThreadingHTTPServer(("127.0.0.1", 0), Between) as server:
        threading.Thread(target=server.serve_forever, daemon=True).start()
        yield server.server_address[1]
        server.shutdown()


def look_at_script(checks: Checks, folder: str, service: Service) -> None:
    """What comes after the page was loaded is shown by its script: a sender posts before the page is asked for again."""
    def posts(asked: int) -> bool:
        if asked == 1:
            post(service, {}, "late")
        return True

    before = sent(service, "/")
    with between(service, is_answered=posts) as port:
        after = Page(Browser(folder, port).dom("/"))
    senders = ["late" in [row[0] for row in page.rows_of("Senders, by their last post")] for page in (before, after)]
    checks.same("the script shows what has come meanwhile", [False, True], senders)


SELECTED = """
const words = document.querySelector("td"), seen = () => `${getSelection()} of ${words.isConnected}`;
getSelection().selectAllChildren(words);
const first = seen(), state = document.getElementById("state"), timer = setInterval(() => {
  document.title = `selected ${first === seen() && first.length > 9} ${document.getElementById("renewal").textContent}`;
}, 500);"""
SCROLLED = """
scrollTo(0, document.body.scrollHeight);
setInterval(() => {
  const renewal = document.getElementById("renewal"), place = renewal.getBoundingClientRect();
  const inSight = scrollY > 100 && place.top >= 0 && place.bottom <= innerHeight && place.height > 0;
  document.title = `in sight ${inSight} ${renewal.textContent}`;
}, 500);"""
KEPT = """
const first = document.querySelector("table");
setTimeout(() => { document.title = `kept ${first.isConnected}`; }, 5000);"""
BROKEN = """
const broken = [];
for (const cell of document.querySelectorAll("td, th")) {
  for (const node of cell.childNodes) {
    for (const { 0: word, index } of (node.nodeValue || "").matchAll(/[^ -]{1,16}(?=[ -]|$)/g)) {
      const range = document.createRange();
      range.setStart(node, index);
      range.setEnd(node, index + word.length);
      const before = index === 0 || " -".includes(node.nodeValue[index - 1]);
      if (before && new Set([...range.getClientRects()].map((rect) => rect.top)).size > 1) broken.push(word);
    }
  }
}
document.title = `broken ${broken}.`;"""


def title(service: Service, folder: str, script: str, is_answered: Callable[[int], bool] = lambda _: True, width: int = WIDE) -> str:
    """The title that a script gives to the overview, in the browser."""
    with between(service, script, is_answered) as port:
        dom = Browser(folder, port).run("--dump-dom", "--virtual-time-budget=9000", path="/", height=600, width=width)
    found = re.search("<title>(.*?)</title>", dom)
    return html.unescape(found[1]) if found else dom[-500:]


def look_at_reading(checks: Checks, folder: str, service: Service, pages: list[Page]) -> None:
    """That a reader can copy from a page, sees how old it is, and hears what is on it."""
    checks.same("what is selected stays so, and the page says so", "selected true stands still while text is selected",
                title(service, folder, SELECTED))
    said = title(service, folder, SCROLLED, lambda asked: asked == 0)
    checks.true("that nobody answers is in sight for who has scrolled", said.startswith("in sight true no answer: what is below is of "),
                said)
    checks.same("what is alike stays", "kept true", title(service, folder, KEPT))
    double = request("price", [{**point(START, 1, {}), "asInt": None, "asDouble": 1.5}], "EUR")
    checks.true("a double without a finer unit is not taken", b"rejected" in post(service, double, "s" * 64)[1], double)
    broken = {width: title(service, folder, BROKEN, width=width) for width in (NARROW, WIDE)}
    checks.same("no short word is broken", {NARROW: "broken .", WIDE: "broken ."}, broken)
    found = [(page.elements.count("table"), page.elements.count("caption"), set(page.scopes)) for page in pages]
    checks.true("each table has a caption, each head its scope", all(tables == captions > 0 and scopes == {"col"}
                for tables, captions, scopes in found), found)
    plots = [(page.elements.count("svg"), page.classes.count("axis")) for page in pages]
    checks.true("each plot has an axis of time", all(one == axes for one, axes in plots) and sum(one for one, _ in plots) > 1, plots)


def look_at_phone(checks: Checks, service: Service, browser: Browser, paths: list[str]) -> None:
    """The same markup and style in a frame as wide as a phone, which says how wide it is."""
    style = service.asked("GET", "/page.css")[1].decode()
    for path in paths:
        text = service.asked("GET", path)[1].decode().replace("<script src=page.js defer></script>", "")
        text = text.replace("<link rel=stylesheet href=page.css>", f"<style>{style}</style>")
        measure = "<script>onload=()=>parent.postMessage(`${document.documentElement.scrollWidth} of ${innerWidth}`,'*')</script></body>"
        write(f"{browser.folder}/page.html", text.replace("</body>", measure))
        write(f"{browser.folder}/phone.html", "<script>onmessage=(it)=>{document.title=`wide ${it.data}`}</script>"
              f"<iframe src=page.html width={PHONE} height=900 frameborder=0></iframe>")
        shown = browser.run("--dump-dom", "--virtual-time-budget=2000", place=f"file://{browser.folder}/phone.html")
        checks.same(f"{path.split('=')[0]}: nothing is wider than a phone", [f"{PHONE} of {PHONE}"],
                    re.findall("wide ([0-9]+ of [0-9]+)", shown))


def take_pictures(browser: Browser, folder: str, link: Any) -> None:
    for name, path, height in (("overview", "/", 1700), ("series", "/series", 700), ("one", f"/{link}", 900)):
        for mode, words in (("light", LIGHT), ("dark", DARK)):
            browser.picture(f"{folder}/{name}-{WIDE}-{mode}.png", path, WIDE, height, *words)
            browser.picture(f"{folder}/{name}-{PHONE}-{mode}.png", path, PHONE, 2 * height, *words)


def run(checks: Checks, program: str, folder: str, pictures: str | None) -> None:
    database = f"{folder}/metrics.db"
    service = Service(program, f"{folder}/data", f"sqlite:{database}", "--flush-interval", "1h", "--durability", "process",
                      "--cumulative", "off")
    with contextlib.ExitStack() as stack:
        stack.callback(service.kill)
        service.start()
        checks.true("the service is ready", service.wait_ready(), service.last_lines())
        look_at_answers(checks, *post_all(service))
        service.order("/flush")
        checks.true("the sink has all", wait_until(service.is_drained), service.last_lines())
        browser = Browser(folder, service.operate)
        with_script = Page(browser.dom("/"))
        look_at_overview(checks, with_script, "with the script")
        without = sent(service, "/")
        look_at_overview(checks, without, "without it")
        look_at_words(checks, program, service, without)
        pages, link = look_at_series(checks, browser, database)
        look_at_safety(checks, service, browser, [with_script, without, *pages])
        look_at_rules(checks, service)
        look_at_phone(checks, service, browser, ["/", "/series", f"/{link}"])
        look_at_script(checks, folder, service)
        look_at_reading(checks, folder, service, [with_script, *pages])
        said = [line for path in ("/", "/series", f"/{link}") for line in browser.complaints(path)]
        checks.same("the browser complains of nothing", [], said)
        if pictures:
            take_pictures(browser, pictures, link)


def main(program: str, pictures: str | None = None) -> int:
    checks = Checks()
    if checks.has("the operator's pages", *([] if chromium() else ["chromium"])):
        with tempfile.TemporaryDirectory(prefix="pages-") as folder:
            run(checks, program, folder, pictures and os.path.abspath(pictures))
    return checks.end()


if __name__ == "__main__":
    if len(sys.argv) not in (2, 3):
        sys.exit(f"usage: {sys.argv[0]} TOTXEGUN [FOLDER]")
    sys.exit(main(os.path.abspath(sys.argv[1]), *sys.argv[2:]))
