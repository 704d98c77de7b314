"""A plant's own texts, a language from right to left, the keyboard alone, and who listens."""
import json
import re
import time
from typing import Any

import pytest
from station_line import report
from station_looks import SCREENS
from station_operator import Operator
from station_plant import whole
from station_site import ROOT, SETUP, Site, wait_for
from tracedesk_dev.trial import Difference

pytestmark = pytest.mark.browser


def test_a_plant_changes_texts_and_set_up(site: Site) -> None:
    """A texts.js of the plant's takes the place of ours; codes of another form; a set-up that is
    wrong is told.
    """
    ours = (ROOT / "station/texts.js").read_text()
    (site.room / "etc/station/texts.js").write_text(
        ours.replace('accepted: "ACCEPTED: {done}"', 'accepted: "ANGENOMMEN: {done}"')
    )
    site.set_up(
        {
            **SETUP,
            "scanner": {"prefix": "~", "suffix": "!"},
            "codes": {"slot": "%{machine}.{slot}", "badge": "#{badge}", "action": "${action}"},
        }
    )
    with Operator(site) as it:
        it.ready()
        it.does("~%M1.1!", "~K-1!", holds=("ANGENOMMEN", "slot 1"))
        it.does("~%M8.1!", kind="fault", holds=("slot of no machine",))
        it.does("~$NOPE!", kind="fault", holds=("no action",))
    told: list[str] = []
    for text, holds in (
        ("[]", "no JSON object"),
        ('{"machines": []}', "list machines"),
        (json.dumps({**SETUP, "boards": 0}), "member boards"),
        (None, "missing"),
    ):
        file = site.room / "etc/station/setup.json"
        file.unlink(missing_ok=True)
        if text is not None:
            file.write_text(text)
        with Operator(site, name="W2", setup="wrong") as it:
            wait_for(
                f"{holds} is told",
                lambda: holds in it.script("return document.getElementById('main').textContent"),
            )  # noqa: B023
            told.append(holds)
    print(f"a translated verdict, codes of another form, {len(told)} faults of a set-up")


def is_quiet(it: Operator, seconds: float) -> bool:
    it.script("window.heard = []")
    time.sleep(seconds)
    return not it.script("return window.heard")


def test_quiet_for_who_listens(site: Site) -> None:
    """What a screen reader is told in 30 idle seconds."""
    heard = """window.heard = []; new MutationObserver((changes) => changes.forEach(({ target }) => {
        const it = (target.nodeType === 1 ? target : target.parentElement)?.closest('[role=status], [role=alert], [aria-live]');
        if (it) { window.heard.push(`${it.id || it.className}: ${it.textContent}`); } })).observe(document.body, { childList: true, subtree: true, characterData: true })"""
    with Operator(site) as it:
        it.ready().does("A/OPEN", "K-1")
        it.seen()
        it.go("line")
        it.script(heard)
        wait_for("all is said that there was to say", lambda: is_quiet(it, 3))
        time.sleep(30)
        if told := it.script("return window.heard"):
            raise Difference(f"{len(told)}: {told[:5]}")
        site.kill_desk()
        wait_for(
            "it is told once that the desk is away",
            lambda: any(text.startswith("news: ") for text in it.script("return window.heard")),
        )
    print("nothing in 30 idle seconds, and a word when the desk went away")


BY_NAME = {
    "screens",
    "actions",
    "done",
    "what",
    "refusals",
    "states",
    "sorts",
    "unknown",
    "urgent",
    "causes",
}  # groups of texts that are taken by a name


def test_from_right_to_left(site: Site) -> None:
    """Texts of a language that is written so: nothing goes beyond the sides, and names stay as they
    are. Each table has a name.
    """
    (site.room / "etc/station/texts.js").write_text(
        'export const TEXTS = { lang: "ar", screens: { line: "\u0627\u0644\u062e\u0637" } };',
        encoding="utf-8",
    )
    with Operator(site) as it:
        it.agrees = False
        it.ready()
        for screen in SCREENS:
            it.go(screen)
            if it.script(
                "return [document.documentElement.dir, document.documentElement.scrollWidth -"
                " innerWidth]"
            ) != ["rtl", 0]:
                raise Difference(f"{screen} from right to left")
            if it.script(
                "return [...document.querySelectorAll('#main table')].some((it) =>"
                " !it.getAttribute('aria-label'))"
            ):
                raise Difference(f"a table of {screen} without a name")
    print(f"{len(SCREENS)} screens")


def tab_to(it: Operator, what: str, holds: Any, most: Any = 150) -> None:
    """Tab until what has the focus is what is wanted."""
    from selenium.webdriver.common.keys import Keys

    for _ in range(most):
        it.keys(Keys.TAB)
        if it.script(f"const it = document.activeElement; return Boolean({holds})"):
            if it.script("return getComputedStyle(document.activeElement).outlineStyle") == "none":
                raise Difference(f"the focus is not seen at {what}")
            return
    raise Difference(f"{most} times Tab and not at {what}")


def test_each_form_by_the_keyboard(site: Site) -> None:
    """Each screen, Receive, Changeover, Trace and the buttons of Scan with Tab, arrows, letters and
    Enter alone.
    """
    from selenium.webdriver.common.keys import Keys

    with Operator(site) as it:

        def go(screen: str) -> None:
            tab_to(
                it,
                f"the button of {screen}",
                (
                    "it.parentElement.id === 'screens' &&"
                    f" [...it.parentElement.children].indexOf(it) === {SCREENS.index(screen)}"
                ),
            )
            it.keys(Keys.ENTER)
            wait_for(
                screen,
                lambda: it.script("return document.getElementById('main').className") == screen,
            )

        it.ready()
        go("receive")
        tab_to(it, "the reel", "it.id === 'reel'")
        it.keys(
            "R-1",
            Keys.TAB,
            "CAP",
            Keys.TAB,
            "LOT-1",
            Keys.TAB,
            "500",
            Keys.TAB,
            Keys.SPACE,
            Keys.ARROW_RIGHT,
            Keys.ARROW_RIGHT,
            Keys.ARROW_RIGHT,
        )
        tab_to(
            it,
            "the button that receives",
            "it.type === 'submit' && it.form.className === 'receive'",
        )
        it.keys(Keys.ENTER)
        kind, text = it.verdict()
        if (
            kind != "accepted"
            or "RECEIVED" not in text
            or report(site, "/reel?reel=R-1")[0]["level"] != "3"
        ):
            raise Difference(f"receive: {text}")
        it.keys(Keys.ESCAPE)
        go("changeover")
        tab_to(it, "the product", "it.id === 'product'")
        it.keys("CTRL-A", Keys.TAB, "7", Keys.ENTER)
        wait_for(
            "the kits",
            lambda: it.script("return document.querySelectorAll('#main table').length") >= 1,
        )
        tab_to(
            it,
            "the selection of M2",
            "it.tagName === 'BUTTON' && it.textContent.includes('Select on M2')",
        )
        it.keys(Keys.ENTER)
        if "PRODUCT SELECTED" not in it.verdict()[1]:
            raise Difference("select")
        it.keys(Keys.ESCAPE)
        go("trace")
        tab_to(it, "the questions", "it.name === 'question'")
        it.keys(Keys.ARROW_DOWN, Keys.ARROW_DOWN)
        tab_to(it, "the name", "it.id === 'name'")
        it.keys("R-1", Keys.ENTER)
        wait_for(
            "the card", lambda: it.script("return document.querySelector('.result table') !== null")
        )
        tab_to(it, "a head of the table", "it.closest('th') !== null")
        it.keys(Keys.ENTER)
        if it.script("return document.querySelector('.result th[aria-sort=ascending]') === null"):
            raise Difference("sort")
        go("scan")
        it.scan("K-1")
        tab_to(it, "the button OPEN", "it.textContent === 'OPEN'")
        it.keys(Keys.ENTER)
        if "OPENED" not in it.verdict()[1]:
            raise Difference("open")
        it.keys(Keys.ESCAPE)
        go("line")
        it.does("S/M1/1", "K-1", holds=("LOADED",))
        whole(site, it, 4)
    print(
        "5 screens, a reel, a selection, a kit, a question, a sort and an action without a mouse"
        " and without a scanner"
    )


def test_a_plants_own_texts(site: Site) -> None:
    """A file that has some texts only, one that has a fault, and none: each text that is not the
    plant's is ours; and none of ours is dead.
    """
    at = site.room / "etc/station/texts.js"
    some = (
        'export const TEXTS = { lang: "de", verdict: { accepted: "ANGENOMMEN: {done}" }, refusals:'
        ' { UnknownReel: ["Rolle {at} ist unbekannt", "Noch einmal scannen."], Expired: ["nur'
        ' eins"] }, screens: 7 };'
    )
    told: list[str] = []
    for text, yes, number in (
        (some, "ANGENOMMEN: GESPLEISST", "4.300"),
        ("export const TEXTS = {", "ACCEPTED: SPLICED", "4,300"),
        (None, "ACCEPTED: SPLICED", "4,300"),
    ):
        at.unlink(missing_ok=True)
        if text:
            at.write_text(text, encoding="utf-8")
        with Operator(site, name=f"W{len(told)}") as it:
            it.ready().agrees = text is None
            it.does("S/M1/1", "K-1", kind="accepted")
            it.does("S/M1/1", "K-3", holds=(yes,))
            it.does(
                "S/M1/1",
                "K-99",
                kind="refused",
                holds=(
                    "Rolle K-99 ist unbekannt" if text == some else "Reel K-99 is unknown",
                    "ABGELEHNT" if text == some else "REFUSED",
                ),
            )
            it.scan("S/M1/1")
            wait_for("numbers as the texts are", lambda: number in it.text("held"))  # noqa: B023
            it.scan("A/CANCEL")
            it.does("A/UNLOAD", "S/M1/1")
            told.append(it.script("return document.documentElement.lang"))
    if told != ["de", "en", "en"]:
        raise Difference(f"languages: {told}")
    with Operator(site, name="W9") as it:
        leaves = it.script(
            """const paths = (it, path) => (typeof it === "string" || Array.isArray(it) ? [path] : Object.entries(it).flatMap(([name, text]) => paths(text, [...path, name])));
            return import("/station/texts.js").then(({ TEXTS }) => paths(TEXTS, []))"""
        )
    modules = "".join(
        file.read_text(encoding="utf-8")
        for file in (ROOT / "station").glob("*.js")
        if not file.name.startswith("texts") and file.name != "own-texts.js"
    )
    dead = [
        ".".join(path)
        for path in leaves
        if not re.search(
            rf"\b{next((name for name in path if name in BY_NAME), path[-1])}\b", modules
        )
    ]
    if dead:
        raise Difference(f"texts that no module names: {dead}")
    print(
        f"3 files: some texts, a fault, none; {len(leaves)} texts, each of which some module names"
    )
