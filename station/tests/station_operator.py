"""Somebody with a scanner at a station, in headless Chromium."""
import contextlib
import importlib
import os
import signal
import subprocess
import time
from typing import Any, Iterator, Sequence

from station_site import BOUNCE, PATIENCE, Site, browser, wait_for
from tracedesk_dev.trial import Difference

SCANS = """
const done = arguments[arguments.length - 1], request = indexedDB.open("tracedesk-station");
request.onsuccess = () => {
  const all = request.result.transaction("scans").objectStore("scans").getAll();
  all.onsuccess = () => { request.result.close(); done(all.result); };
};
"""


def chain_of(page: Any) -> Any:
    """What hands do at a page, one after the other."""
    return importlib.import_module("selenium.webdriver").ActionChains(page)


class Operator:
    """Somebody with a scanner at a station."""

    def __init__(
        self,
        site: Site,
        name: str = "W1",
        user: str | None = "op",
        size: tuple[int, int] = (1920, 1080),
        setup: str = "",
        begin: bool = True,
    ) -> None:
        self.site, self.name, self.user, self.size, self.setup = site, name, user, size, setup
        self.page: Any = None
        self.last = "", 0.0  # the last code, and when it was scanned
        self.agrees = True  # whether its Line is compared with `report` at the end
        if begin:
            with contextlib.ExitStack() as kept:
                kept.callback(self.close)
                self.open()
                kept.pop_all()

    def __enter__(self) -> "Operator":
        return self

    def __exit__(self, kind: type[BaseException] | None, *_: object) -> None:
        try:
            if kind is None and self.page and not self.setup:
                self.site.last_look(self)
        finally:
            self.close()

    def open(self, before: str = "") -> None:
        """Begins the browser, logs in and waits until the page is there. `before` is a script that
        is run before those of each page.
        """
        self.page = browser(self.site.room, f"profile-{self.name}", self.size)
        if before:
            self.page.execute_cdp_cmd("Page.addScriptToEvaluateOnNewDocument", {"source": before})
        self.load()

    def load(self, where: Any = "") -> None:
        log_in = self.site.url.replace("https://", f"https://{self.user}:{self.user}@")
        self.page.get(f"{log_in}/station/icon.svg")
        self.page.get(f"{self.site.url}/station/?station={self.name}{where}")
        if not self.setup:
            wait_for(
                "the page is there",
                lambda: self.script(
                    "return document.querySelectorAll('#screens button').length === 5 &&"
                    " document.getElementById('state').textContent !== ''"
                ),
            )

    def ready(self) -> "Operator":
        """Waits until the Line's reports are there."""
        wait_for(
            "the page has the desk's answers",
            lambda: self.script(
                "return document.body.dataset.asked === 'all' &&"
                " document.getElementById('state').className === 'fresh'"
            ),
        )
        return self

    def close(self) -> None:
        if self.page:
            with contextlib.suppress(Exception):
                self.page.quit()
            self.page = None

    def kill(self) -> None:
        """Ends the browser as a power cut does."""
        driver = self.page.service.process.pid
        processes = subprocess.run(
            ["ps", "-eo", "pid,ppid"], capture_output=True, text=True
        ).stdout.split("\n")[1:]
        below, pairs = {driver}, [tuple(map(int, it.split())) for it in processes if it.strip()]
        for _ in range(6):
            below |= {pid for pid, parent in pairs if parent in below}
        for pid in below:
            with contextlib.suppress(ProcessLookupError):
                os.kill(pid, signal.SIGKILL)
        self.page.service.process.wait()
        self.page = None
        for it in (self.site.room / f"profile-{self.name}").glob("Singleton*"):
            it.unlink()

    def script(self, text: str, *words: Any) -> Any:
        return self.page.execute_script(text, *words)

    def keys(self, *keys: str) -> None:
        """What is typed, wherever the focus is."""
        chain_of(self.page).send_keys(*keys).perform()

    def scan(self, *codes: str) -> None:
        """Scans codes as a wedge does: letters and Enter; the same one not sooner than a hand
        does.
        """
        from selenium.webdriver.common.keys import Keys

        for code in codes:
            if code == self.last[0]:
                time.sleep(max(0, self.last[1] + BOUNCE - time.monotonic()))
            self.keys(code + Keys.ENTER)
            self.last = code, time.monotonic()

    def text(self, name: str) -> Any:
        return self.script("return document.getElementById(arguments[0])?.innerText ?? ''", name)

    def told(self, selector: str) -> Any:
        """The text of the first such element, or nothing."""
        return self.script("return document.querySelector(arguments[0])?.innerText ?? ''", selector)

    def turn(self) -> Any:
        """The number of what the page showed last over its screens."""
        return self.script("return Number(document.getElementById('verdict').dataset.turn ?? 0)")

    def verdict(
        self,
        kinds: Sequence[str] = ("accepted", "refused", "fault"),
        seconds: float = PATIENCE,
        after: int = 0,
    ) -> Any:
        """The kind and the text of the verdict, once there is one of these kinds; `after` is the
        turn of what was there before.
        """

        def shown() -> Any:
            kind, text, turn = self.script(
                "const v = document.getElementById('verdict'); return v.hidden ? ['', '', 0] :"
                " [v.className, v.innerText, Number(v.dataset.turn)]"
            )
            return (kind, text) if kind in kinds and turn > after else None

        return wait_for(f"a verdict of {kinds}: {self.text('verdict')!r}", shown, seconds)

    def seen(self) -> None:
        """Cancels until nothing is shown over the screens."""
        from selenium.webdriver.common.keys import Keys

        def hidden() -> Any:
            self.keys(Keys.ESCAPE)
            return self.script("return document.getElementById('verdict').hidden")

        wait_for("nothing is shown", hidden)

    def does(self, *codes: str, kind: str = "accepted", holds: Sequence[str] = ()) -> Any:
        """Scans, and looks whether the verdict is of this kind and has these texts."""
        after = self.turn() if codes else 0
        self.scan(*codes)
        got, text = self.verdict(
            kinds=(
                ("accepted", "refused", "fault")
                if kind in ("accepted", "refused", "fault")
                else (kind,)
            ),
            after=after,
        )
        lacking = [it for it in holds if it not in text]
        if got != kind or lacking:
            raise Difference(
                f"{codes}: wanted {kind} with {lacking or 'no more'}, got {got}: {text!r}"
            )
        return text

    def go(self, screen: str) -> None:
        self.script("location.hash = arguments[0]", screen)
        wait_for(
            screen,
            lambda: self.script("return document.getElementById('main').className") == screen,
        )

    def rows(self, table: int = 0) -> Any:
        """The rows of a table of the page, as texts."""
        return self.script(
            (
                "return [...(document.querySelectorAll('#main"
                " table')[arguments[0]]?.querySelectorAll('tbody tr') ?? [])].map((row) =>"
                " [...row.cells].map((it) => it.textContent))"
            ),
            table,
        )

    def kept(self) -> Any:
        """What the browser keeps of its scans, and of those that were not sent."""
        return self.page.execute_async_script(SCANS)

    def scans(self) -> Any:
        """What the browser keeps of its scans."""
        return [scan for scan in self.kept() if scan["state"] != "notSent"]

    def keeps_what_was_seen(self) -> None:
        """Waits until the browser has kept that somebody has seen all that was refused."""
        wait_for(
            "that all was seen is kept",
            lambda: not any(it["state"] == "notSent" or it.get("unseen") for it in self.kept()),
        )

    @contextlib.contextmanager
    def without(self, *urls: str) -> Iterator[None]:
        """Keeps these from the page."""
        self.page.execute_cdp_cmd("Network.enable", {})
        self.page.execute_cdp_cmd("Network.setBlockedURLs", {"urls": urls})
        try:
            yield
        finally:
            self.page.execute_cdp_cmd("Network.setBlockedURLs", {"urls": []})
