"""The page of recalls behind the packaged nginx: who gets to it, and a whole recall in Chromium."""
from __future__ import annotations

import pathlib
import subprocess
import urllib.parse
from typing import Any, Iterator

import pytest
import station_site
from lab import small
from lab.line import Line
from lab.site import Site
from lab.tools import tool
from tracedesk_ops.recallpage import papers
from tracedesk_ops.recallpage.jobs import Queue
from tracedesk_ops.recallpage.worker import Worker

pytestmark = [
    pytest.mark.needs("nginx", "openssl", "python:flask", "python:waitress"),
    pytest.mark.xdist_group("recall_proxy"),
]

SOCKET = "/run/tracedesk-recall/socket"  # packaging/nginx.conf
RECALLER = "qm"  # of the people of a site; its password is its name
FORM = "application/x-www-form-urlencoded"
KINDS = {  # of the files that an answer offers
    papers.PDF: "application/pdf",
    papers.SHEET: "application/vnd.openxmlformats-officedocument.spreadsheetml",
    papers.BOARDS: "text/csv",
    papers.PACKED: "application/zip",
}
BROKEN_WORDS = """
const broken = [];
for (const heading of document.querySelectorAll("th")) {
  for (const word of heading.textContent.matchAll(/\\S+/g)) {
    const range = document.createRange();
    range.setStart(heading.firstChild, word.index);
    range.setEnd(heading.firstChild, word.index + word[0].length);
    if (range.getClientRects().length > 1) broken.push(word[0]);
  }
}
return broken;
"""
# In one call each: a page that waits renews itself, and an element of the one before is stale.
TEXT_OF = "const it = document.getElementById(arguments[0]); return it && it.innerText.trim();"
CLICK = """
const it = [...document.links].find((link) => link.textContent === arguments[0]);
if (it) it.click();
return Boolean(it);
"""
SHIPPED = "board,customer,date\nSN-3,Customer A,2026-03-09\n"


class RecallSite(Site):
    """A site with the page of recalls, whose queue is in its folder."""

    page: "subprocess.Popen[bytes]"

    def __enter__(self) -> "RecallSite":
        super().__enter__()
        self.queue = Queue(self.room / "queue")
        for name in ("asked", "answers"):
            (self.queue.folder / name).mkdir(parents=True)
        words = ["serve", "--socket", self.room / "recall", "--queue", self.queue.folder]
        self.page = subprocess.Popen([str(word) for word in (tool("recall-page"), *words)])
        station_site.wait_for("the page answers", lambda: self.ask("GET", RECALLER)[0] == 200)
        return self

    def __exit__(self, *how: object) -> None:
        self.page.terminate()
        self.page.wait()
        super().__exit__(*how)

    def make_users(self) -> None:
        super().make_users()
        (self.room / "etc/recallers").write_text(self.lines[RECALLER])

    def write_proxy(self) -> None:
        super().write_proxy()
        file = self.room / "tracedesk.conf"
        text = file.read_text(encoding="utf-8")
        assert SOCKET in text
        file.write_text(text.replace(SOCKET, str(self.room / "recall")), encoding="utf-8")

    def ask(self, method: str, user: str, body: str | None = None, **headers: str) -> Any:
        return self.asked(method, "/recall/", user, body, **headers)


@pytest.fixture(scope="module")
def site(program: pathlib.Path) -> Iterator[RecallSite]:
    with RecallSite(str(program)) as made:
        yield made


@pytest.fixture(scope="module")
def line(small_line: Line) -> Line:
    return small_line


@pytest.mark.parametrize("user", ["", "op", "office"])
def test_who_is_no_recaller_gets_nothing(site: RecallSite, user: str) -> None:
    """A log-in that may send, or ask for reports, is none of a recaller; nor is a header."""
    before = site.queue.all()
    for method in ("GET", "POST"):
        status, headers, _ = site.ask(method, user, "kind=lot", X_Reader=RECALLER)
        assert status == 401 and 'realm="recalls"' in headers["WWW-Authenticate"]
    assert site.queue.all() == before


def test_a_certificate_is_no_recaller(site: RecallSite) -> None:
    assert site.asked("GET", "/recall/", certificate="m2")[0] == 401


def test_a_page_elsewhere_asks_for_no_recall(site: RecallSite) -> None:
    body = urllib.parse.urlencode({"kind": "lot", "names": "L-3"})
    foreign = {"Origin": "https://elsewhere.example", "Sec_Fetch_Site": "cross-site"}
    before = site.queue.all()
    assert site.ask("POST", RECALLER, body, Content_Type=FORM, **foreign)[0] == 403
    assert site.queue.all() == before


def test_the_proxy_names_the_reader(site: RecallSite) -> None:
    body = urllib.parse.urlencode({"kind": "lot", "names": "L-9"})
    status, headers, _ = site.ask("POST", RECALLER, body, Content_Type=FORM, X_Reader="root")
    assert status == 303
    name = urllib.parse.urlsplit(headers["Location"]).path.split("/")[-2]
    job = site.queue.job(name)
    assert job and job.asked.reader == RECALLER
    job.end(1, "NOT FOUND", "")


def test_each_answer_may_load_nothing_from_elsewhere(site: RecallSite) -> None:
    _, headers, _ = site.ask("GET", RECALLER)
    assert headers["Content-Security-Policy"].startswith("default-src 'none'")
    assert headers["Cache-Control"] == "no-store"


# --- In a browser


class Reader:
    """A recaller at a browser, who has a log-in and nothing else."""

    def __init__(self, site: RecallSite, page: Any, worker: Worker) -> None:
        self.site, self.page, self.worker = site, page, worker

    def opens(self, path: str = "") -> None:
        log_in = f"://{RECALLER}:{RECALLER}@"
        self.page.get(f"{self.site.url.replace('://', log_in)}/recall/{path}")

    def asks(self, names: str, kind: str = "lot", shipped: str = "") -> str:
        """Fills the form in, and returns what the page of the new recall says."""
        self.page.find_element("id", "kind").send_keys(kind)
        self.page.find_element("id", "names").send_keys(names)
        if shipped:
            file = self.site.room / "shipped.csv"
            file.write_text(shipped)
            self.page.find_element("id", "shipped").send_keys(str(file))
        self.page.find_element("id", "ask").click()
        return self.shown("wait")

    def shown(self, name: str) -> str:
        """The text of an element of this name, once it is there."""
        text = station_site.wait_for(name, lambda: self.page.execute_script(TEXT_OF, name))
        return str(text)

    def goes_back(self) -> None:
        assert self.page.execute_script(CLICK, "Another recall")
        station_site.wait_for("the form", lambda: self.page.find_elements("id", "ask"))

    def waits(self) -> str:
        """The sentence in the frame of the answer, for which the page renews itself."""
        return self.shown("answer")

    @property
    def text(self) -> str:
        return str(self.page.find_element("tag name", "body").text)

    def expect_well_shown(self) -> None:
        """Nothing is wider than the screen, no heading of a column has a broken word, and the
        browser refused nothing that the page asks.
        """
        width, screen = self.page.execute_script(
            "return [document.documentElement.scrollWidth, innerWidth]"
        )
        assert width <= screen, (width, screen)
        assert not self.page.execute_script(BROKEN_WORDS)
        faults = [entry for entry in self.page.get_log("browser") if entry["level"] == "SEVERE"]
        assert not faults


@pytest.fixture(scope="module")
def chromium(site: RecallSite) -> Iterator[Any]:
    if why := station_site.missing() or station_site.why_no_browser():
        pytest.skip(str(why))
    page = station_site.browser(site.room, "profile-recall")
    try:
        yield page
    finally:
        page.quit()


@pytest.fixture
def reader(
    site: RecallSite,
    line: Line,
    chromium: Any,
    tmp_path: pathlib.Path,
    monkeypatch: pytest.MonkeyPatch,
) -> Reader:
    """Who recalls over a small line."""
    text = f"line = L1\ndb = {line.file}\nport = {line.port}\n"
    (tmp_path / "L1.conf").write_text(text)
    monkeypatch.setenv("TRACEDESK_SET_UP", str(tmp_path))
    monkeypatch.setenv("PROGRAM", str(line.program))
    made = Reader(site, chromium, Worker(site.queue, tool("recall")))
    made.opens()
    return made


@pytest.mark.browser
@pytest.mark.gate
@pytest.mark.needs("chromium", "python:selenium")
def test_a_recaller_finds_the_boards_in_a_browser(reader: Reader) -> None:
    """From an empty form to the sentence in the frame, while a second recall waits."""
    assert reader.asks("L-3, L-4", shipped=SHIPPED) == "Is next."
    first = reader.page.current_url
    reader.goes_back()
    assert reader.asks("240131") == "Waits behind 1 other."
    reader.page.get(first)
    reader.worker.run(reader.site.queue.waiting()[0])
    assert reader.waits().startswith("Complete: 2 boards hold a piece of the lots L-3, L-4")
    for text in ("Customer A: 1 board", "Not shipped, or not on the list: 1 board", "SN-3", "SN-4"):
        assert text in reader.text, text
    reader.expect_well_shown()
    reader.goes_back()
    rows = [row.text for row in reader.page.find_elements("css selector", "tbody tr")[:2]]
    assert rows[0].endswith("Is next.") and "Complete: 2 boards" in rows[1], rows
    reader.worker.work(is_once=True)
    reader.page.find_element("link text", "lot 240131").click()
    assert reader.waits().startswith("Complete: 2 boards hold a piece of lot 240131, and no other")


@pytest.mark.browser
@pytest.mark.needs("chromium", "python:selenium")
def test_what_an_answer_lacks_is_named_in_a_browser(reader: Reader, line: Line) -> None:
    """A desk that is away, and a board whose report it refused. The others are there, in red."""
    body = {"Machine": "M1", "Board": "SN-8", "Designators": ["C1"]}
    line.post([small.say("MaterialsInstalled", "refused", **body)])
    line.end()
    try:
        reader.asks("240131")
        reader.worker.work(is_once=True)
    finally:
        line.serve()
        line.note("decisions", Of=1, Became="scrapped")
    assert reader.waits().startswith("NOT COMPLETE: 2 boards hold a piece of lot 240131")
    for text in ("L1: no desk of this machine has", "nobody decided", "SN-1"):
        assert text in reader.text, text
    table = reader.page.find_elements("css selector", "table")[-2].text
    assert "SN-8" in table and "MaterialsInstalled" in table, table
    colour = reader.page.find_element("id", "answer").value_of_css_property("color")
    assert colour == "rgba(183, 28, 28, 1)"
    reader.expect_well_shown()


@pytest.mark.browser
@pytest.mark.needs("chromium", "python:selenium")
def test_the_papers_are_downloads_in_a_browser(reader: Reader, folder: pathlib.Path) -> None:
    """A click on each link of the answer saves its file; the PDF is shown."""
    reader.asks("L-4")
    reader.worker.work(is_once=True)
    reader.waits()
    how = {"behavior": "allow", "downloadPath": str(folder)}
    reader.page.execute_cdp_cmd("Page.setDownloadBehavior", how)
    for link in reader.page.find_elements("css selector", ".downloads a"):
        target = urllib.parse.urlsplit(link.get_attribute("href")).path
        name = target.split("/")[-1]
        status, headers, _ = reader.site.asked("HEAD", target, RECALLER)
        assert status == 200 and headers["Content-Type"].startswith(KINDS[name]), headers
        if name != papers.PDF:
            link.click()
            station_site.wait_for(f"{name} is saved", lambda: [*folder.glob(f"recall-*-{name}")])
    assert {path.name.split("-")[-1] for path in folder.iterdir()} == {*papers.FILES} - {papers.PDF}
