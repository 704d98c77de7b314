"""What a scanner types leads to a scan, whatever has the focus."""
import pathlib
import time
from typing import Any

import pytest
from station_line import report
from station_looks import SCREENS
from station_operator import Operator, chain_of
from station_plant import GUARD, count_is, refused, touch, type_label, whole
from station_site import SETUP, Site, wait_for
from tracedesk_dev.trial import Difference

pytestmark = pytest.mark.browser


def test_a_reel_that_is_there_is_verified(site: Site, tmp_path: pathlib.Path) -> None:
    """Its slot and the reel are scanned again, as at the beginning of a shift: green, and nothing
    is sent. A reel that was taken off meanwhile is loaded.
    """
    with Operator(site) as it:
        it.ready()
        it.does("S/M1/1", "K-1", holds=("LOADED",))
        for _ in range(2):
            it.scan("S/M1/1", "K-1")
            kind, text = it.verdict(("accepted",))
            if "VERIFIED" not in text or "M1 slot 1" not in text:
                raise Difference(text)
        it.page.save_screenshot(str(tmp_path / "verified.png"))
        count_is(it, 1, "a verification")
        site.say("MaterialsUnloaded", {"Machine": "M1", "Slot": "1"})
        time.sleep(3)  # longer than the proxy keeps a report
        it.does("S/M1/1", "K-1", holds=("LOADED",))
        count_is(it, 2, "a load of what was taken off")


def test_a_name_is_no_number(site: Site) -> None:
    """The held reel's own name, a reel of the slot, and a count far above what there is."""
    for reel in ("1000234", "77"):
        site.say(
            "ReelReceived",
            {"Reel": reel, "PartNumber": "CAP", "Lot": "L-9", "Level": "1", "Quantity": 500},
            minutes_ago=1,
        )
    site.say("MaterialsLoaded", {"Machine": "M1", "Slot": "1", "Reel": "77"})
    with Operator(site) as it:
        it.ready()
        it.does("1000234", "A/COUNT", "1000234", kind="fault", holds=("name of the reel",))
        it.scan("A/CANCEL")
        it.does("S/M1/1", "A/SCRAP", "77", kind="fault", holds=("name of the reel",))
        it.scan("A/CANCEL")
        count_is(it, 0, "a name as a number")
        it.scan("1000234", "A/COUNT", "5000")
        if "has 500 pieces left" not in it.verdict(("ask",))[1]:
            raise Difference(it.text("verdict"))
        it.scan("77")
        it.scan("A/CANCEL")
        wait_for(
            "the question is gone",
            lambda: it.script("return document.getElementById('verdict').hidden"),
        )
        count_is(it, 0, "a no")
        it.scan("1000234", "A/COUNT", "5000")
        it.verdict(("ask",))
        time.sleep(0.8)
        touch(it, ".answers button")
        if "count 5,000 on 1000234" not in it.verdict()[1]:
            raise Difference(it.text("verdict"))
        it.does("1000234", "A/COUNT", "5060", holds=("COUNTED",))
        for quantity in (
            "5100",
            "5600",
        ):  # 600 above the first card, and 500 above the count before
            it.does("K-2", "A/COUNT", quantity, holds=("COUNTED",))
        it.go("receive")
        type_label(it, "[)>{RS}06{GS}PCAP{GS}1TLOT-1{GS}S4711{RS}{EOT}")
        it.scan("4711", "A/LEVEL-1", "A/ENTER")
        wait_for(
            "the pieces are refused",
            lambda: "not as the desk takes it"
            in it.script("return document.querySelector('form.receive .note').textContent"),
        )
        whole(site, it, 4)
    print("2 names, 1 rise with a no and a yes, 2 counts at once, 1 receipt")


def test_typing_with_pauses_and_touches(site: Site) -> None:
    """A number in two parts, a touch in its midst, double touches, double Enters, a second label,
    the control keys of a wedge.
    """
    from selenium.webdriver.common.keys import Keys

    with Operator(site) as it:
        it.ready()
        it.scan("K-1", "A/COUNT")
        it.keys("12")
        time.sleep(11)
        it.keys("50")
        it.does("", holds=("count 1,250 on K-1",))
        refused(it, "S/M1/2", "K-3")
        it.scan("K-1", "A/COUNT")
        wait_for("a number is asked for", lambda: "how many" in it.text("held"))
        it.keys("9")
        time.sleep(GUARD)
        it.script("document.activeElement.blur()")
        touch(it, "#verdict .close")
        it.keys("1")
        it.does("", holds=("count 91 on K-1",))
        it.go("changeover")
        it.seen()
        it.script("document.querySelector('form.changeover').elements.product.value = 'CTRL-A'")
        chain_of(it.page).double_click(
            it.page.find_elements("css selector", "form.changeover button")[1]
        ).perform()
        if "PRODUCT SELECTED" not in it.verdict()[1]:
            raise Difference(it.text("verdict"))
        time.sleep(1)
        count_is(it, 4, "a double touch")
        receipts(it, Keys)
        control_keys(it, Keys)
        whole(site, it, 7)
    print(
        "2 numbers, a double touch of 2 buttons, a double Enter, a second label, Ctrl with J and M"
    )


def receipts(it: Operator, Keys: Any) -> None:
    label = "[)>{RS}06{GS}PLED{GS}Q3000{GS}1TLOT-77{GS}S%s{RS}{EOT}"
    it.go("receive")
    it.seen()
    type_label(it, label % "R-1")
    it.scan("A/LEVEL-3")
    type_label(it, label % "R-2")
    if "R-1" not in it.verdict(("ask",))[1]:
        raise Difference(it.text("verdict"))
    it.scan("A/CANCEL")
    if it.script("return document.getElementById('reel').value") != "R-1":
        raise Difference("a no replaced the label")
    it.script("document.getElementById('quantity').focus()")
    it.script("const now = performance.now(); performance.now = () => now")  # both come at once
    it.keys(Keys.END, Keys.ENTER, Keys.ENTER)
    it.script("delete performance.now")
    time.sleep(0.5)
    count_is(it, 4, "a double Enter")
    it.script(
        "const b = document.querySelector('form.receive button[type=submit]'); b.focus();"
        " b.click(); b.click()"
    )
    if "R-1" not in it.verdict()[1]:
        raise Difference(it.text("verdict"))
    time.sleep(0.5)
    count_is(it, 5, "a double touch of Receive")
    it.seen()
    it.script("document.querySelectorAll('form.receive button')[1].click()")
    type_label(it, "[)>{RS}06{GS}PLED{GS}1TLOT-77{GS}SR-6{GS}9D2614{GS}KPO-7{RS}{EOT}")
    it.scan("A/LEVEL-6", "A/4", "A/0", "A/ENTER", "A/1", "A/2", "A/0")
    if (
        got := it.script(
            "return ['quantity', 'minutes'].map((it) => document.getElementById(it).value)"
        )
    ) != ["40", "120"]:
        raise Difference(f"digits of a reel of level 6: {got}")
    it.does("A/ENTER", holds=("RECEIVED", "R-6"))
    has_attributes(it, {"R-1": {}, "R-6": {"DateCode": "2614", "Order": "PO-7"}})


def has_attributes(it: Operator, wanted: Any) -> None:
    """Whether the page sent of these reels what else their labels say."""
    bodies = [scan["body"] for scan in it.scans() if scan["word"] == "ReelReceived"]
    found = {
        body["Reel"]: {name: body[name] for name in ("DateCode", "Order") if name in body}
        for body in bodies
        if body["Reel"] in wanted
    }
    if found != wanted:
        raise Difference(f"attributes of receipts: {found}")


def control_keys(it: Operator, Keys: Any) -> None:
    it.script(
        "window.kept = []; window.addEventListener('keydown', (event) => event.ctrlKey && event.key"
        " !== 'Control' && window.kept.push(event.defaultPrevented))"
    )
    chain = chain_of(it.page)
    for code in ("A/OPEN", "K-2"):
        chain.send_keys(code)
        for key in ("m", "j"):
            chain.key_down(Keys.CONTROL).send_keys(key).key_up(Keys.CONTROL)
    after = it.turn()
    chain.perform()
    if "open K-2" not in it.verdict(after=after)[1] or it.script("return window.kept") not in (
        [True] * 4,
        [],
    ):
        raise Difference(
            f"Ctrl with M and J: {it.text('verdict')} {it.script('return window.kept')}"
        )


def test_codes_that_may_be_read_as_others(site: Site) -> None:
    """A form of codes under which a code is read as another one is no set-up; names with braces are
    scanned.
    """
    site.say(
        "SheetDefined",
        {
            "Product": "CTRL-A",
            "Machine": "M{1}",
            "Rows": [{"Slot": "1", "PartNumber": "CAP", "Designators": ["C1"]}],
        },
    )
    site.say("ProductSelected", {"Machine": "M{1}", "Product": "CTRL-A"})
    wrong = [
        (SETUP["machines"], codes, "no usable set-up")
        for codes in (
            {"badge": "A/{badge}"},
            {"slot": "A/{machine}/{slot}"},
            {"badge": "S/{badge}"},
            {"action": "[)>{action}"},
            {"action": "K{action}"},
        )
    ]
    wrong += [
        ([{"machine": it} for it in names], {"slot": slot}, "may be read as")
        for names, slot in (
            (("M1", "M11"), "S{machine}{slot}"),
            (("M1", "M1/2"), "S/{machine}/{slot}"),
            (("M1", "M1"), "S/{machine}/{slot}"),
        )
    ]
    for machines, codes, told in wrong:
        site.set_up({**SETUP, "machines": machines, "codes": codes})
        with Operator(site, name="W2", setup="wrong") as it:
            wait_for(
                f"{codes} of {machines} is reported", lambda: told in it.text("main")
            )  # noqa: B023
    site.set_up(
        {
            **SETUP,
            "machines": [
                {"machine": "M1", "product": "CTRL-A"},
                {"machine": "M11"},
                {"machine": "M{1}", "product": "CTRL-A"},
            ],
        }
    )
    with Operator(site) as it:
        it.ready().does("S/M{1}/1", "K-1", holds=("LOADED", "M{1} slot 1"))
    print(f"{len(wrong)} set-ups refused; a slot of M{{1}} loaded")


# What may have the focus: what the screen has, and one of each kind that a screen may get.
FOCUSABLE = """
const kinds = ['text', 'search', 'tel', 'radio', 'checkbox', 'date', 'number', 'time', 'range', 'color', 'file', 'button', 'submit'];
const more = document.createElement('form');
more.id = 'more-kinds';
more.addEventListener('submit', (event) => { event.preventDefault(); window.sent = true; });
for (const kind of kinds) { const it = document.createElement('input'); it.type = kind; more.append(it); }
for (const tag of ['select', 'textarea', 'button']) { more.append(document.createElement(tag)); }
for (const word of ['Sun', 'Kite', 'S']) { const it = document.createElement('option'); it.textContent = word; more.querySelector('select').append(it); }
const div = document.createElement('div'); div.tabIndex = 0; more.append(div);
if (arguments[0]) { document.getElementById('main').append(more); }
window.focusable = [document.body, ...document.querySelectorAll('a[href], button, input, select, textarea, [tabindex]')].filter((it) => it === document.body || (it.checkVisibility() && !it.disabled));
return window.focusable.map((it) => [it.tagName, it.type ?? '', it.id || it.textContent.slice(0, 20)].join(' '));
"""
FOCUS = """
const it = window.focusable[arguments[0]], isField = it.tagName === 'TEXTAREA' || (it.tagName === 'INPUT' && ['text', 'search', 'tel'].includes(it.type));
it === document.body ? document.activeElement.blur() : it.focus();
if (isField && it.id !== 'scan') { it.value = 'KEEP'; it.setSelectionRange(4, 4); }
return [isField, ['select-one'].includes(it.type) || it.type === 'radio' ? String(it.checked) + it.value : ''];
"""
AFTER = """
const it = window.focusable[arguments[0]];
return [it.value, ['select-one'].includes(it.type) || it.type === 'radio' ? String(it.checked) + it.value : '', Boolean(window.sent)];
"""


def test_a_scan_whatever_has_the_focus(site: Site) -> None:
    """A slot and a reel with the focus on every element of every screen, and on one of each kind:
    both are taken, and nothing else changes.
    """
    tried = 0
    with Operator(site) as it:
        it.ready()
        for screen in SCREENS:
            it.go(screen)
            names = it.script(FOCUSABLE, screen == "receive")
            for number, name in enumerate(names):
                is_field, chosen = it.script(FOCUS, number)
                it.scan("S/M1/2")
                wait_for(
                    f"a slot is held on {screen}, with the focus on {name}",
                    lambda: "M1 slot 2" in it.text("held"),
                )
                value, after, sent = it.script(AFTER, number)
                if (
                    (is_field and name.split()[-1] != "scan" and value != "KEEP")
                    or after != chosen
                    or sent
                ):
                    raise Difference(
                        f"{screen}: a scan at {name} left {value!r}, {chosen!r} became {after!r},"
                        f" sent {sent}"
                    )
                it.script(FOCUS, number)
                it.scan("A/CANCEL")
                wait_for(
                    f"nothing is held on {screen}, after {name}",
                    lambda: "a reel or an action" in it.text("held"),
                )
                it.script(FOCUS, number)
                if not is_field:
                    it.scan("K-2")
                    wait_for(
                        f"a reel is held on {screen}, with the focus on {name}",
                        lambda: "Reel K-2" in it.text("held"),
                    )
                    it.keys("\ue00c")
                tried += 1
        if it.scans():
            raise Difference(f"a message was made: {it.scans()}")
        tried += scans_beside_fields(site, it)
    print(
        f"{tried} places: each scan was taken, a field kept what it had, and nothing was sent that"
        " was not asked for"
    )


def scans_beside_fields(site: Site, it: Operator) -> Any:
    """A reel for a slot that is held, a reel in a field of numbers, letters that were left behind,
    and the page of codes.
    """
    it.go("trace")
    it.scan("S/M1/1")
    it.script("document.getElementById('name').focus()")
    it.does("K-1", holds=("LOADED", "K-1"))
    it.keys("\ue00c")
    it.go("changeover")
    it.script("document.getElementById('boards').focus()")
    it.scan("K-2")
    wait_for("the reel is held", lambda: "Reel K-2" in it.text("held"))
    if it.script("return document.getElementById('boards').value") != str(SETUP["boards"]):
        raise Difference("a reel stands among the boards")
    it.keys("\ue00c", "le")
    time.sleep(0.5)
    it.scan("S/M1/2")
    wait_for("a slot behind letters that were left", lambda: "M1 slot 2" in it.text("held"))
    it.keys("\ue00c")
    it.page.get(f"{site.url}/station/codes.html")
    wait_for(
        "the codes", lambda: it.script("return document.querySelectorAll('figure').length > 20")
    )
    it.scan("S/M1/3")
    wait_for(
        "the station takes what was scanned among the codes", lambda: "M1 slot 3" in it.text("held")
    )
    it.keys("\ue00c")
    whole(site, it, 1)
    return 4


FIELDS = "return ['reel', 'part', 'lot', 'quantity'].map((it) => document.getElementById(it).value)"


def test_receive_keeps_what_it_has(site: Site) -> None:
    """Labels in each spelling into empty fields; a scan into a filled field replaces it; Enter
    sends nothing unasked; a refusal keeps the fields; and by codes alone.
    """
    part, forms = "[)>{RS}06{GS}P%s{GS}Q3000{GS}1TLOT-77{GS}S%s{RS}{EOT}", 0
    with Operator(site) as it:
        it.ready().go("receive")
        for label in (
            "[)>\x1e06\x1dPLED\x1dQ3000\x1d1TLOT-77\x1dSR-1\x1e\x04",
            part % ("LED", "R-1"),
            "[)>06{GS}PLED{GS}Q3000{GS}1TLOT-77{GS}SR-1",
        ):
            it.script("document.querySelectorAll('form.receive button')[1].click()")
            if it.script(FIELDS) != [""] * 4:
                raise Difference("the fields are not empty")
            type_label(it, label)
            wait_for(
                f"{label!r} is read",
                lambda: it.script(FIELDS) == ["R-1", "LED", "LOT-77", "3000"],
            )
            forms += 1
        it.script("document.getElementById('reel').focus()")
        it.scan("K-1")
        fields = it.script(FIELDS)
        if fields != ["K-1", "LED", "LOT-77", "3000"]:
            raise Difference(f"a reel that was scanned into a filled field: {fields}")
        it.scan("A/LEVEL-3")
        it.script("document.getElementById('lot').focus()")
        it.scan("LOT-78")
        time.sleep(0.5)
        if (
            it.scans()
            or it.script("return document.querySelector('form.receive').elements.level.value")
            != "3"
        ):
            raise Difference(f"Enter behind a scan sent {it.scans()}")
        it.does("A/ENTER", kind="refused", holds=("came in before",))
        it.keys("\ue00c")
        if it.script(FIELDS) != [
            "K-1",
            "LED",
            "LOT-78",
            "3000",
        ] or "came in before" not in it.script(
            "return document.querySelector('form.receive .note').textContent"
        ):
            raise Difference(f"after a refusal: {it.script(FIELDS)}")
        it.go("line")
        it.go("receive")
        if it.script(FIELDS) != ["K-1", "LED", "LOT-78", "3000"]:
            raise Difference("another screen took what was filled in")
        it.script("document.getElementById('reel').focus()")
        it.scan("R-2")
        time.sleep(
            1
        )  # ENTER twice within a second counts once, and a scan into a field is no code between
        it.does("A/ENTER", holds=("RECEIVED", "R-2", "LED"))
        wait_for("the fields are empty", lambda: it.script(FIELDS) == [""] * 4)
        type_label(it, part % ("LED", "R-4"))
        wait_for("a second reel of the part", lambda: it.script(FIELDS)[0] == "R-4")
        if it.script("return document.querySelector('form.receive').elements.level.value"):
            raise Difference("the level of a bag was taken from another one")
        it.script("document.querySelectorAll('form.receive button')[1].click()")
        it.scan("A/LINE", "A/RECEIVE", part % ("CAP", "R-3"), "A/LEVEL-6", "A/1", "A/2", "A/0")
        it.does("A/ENTER", holds=("RECEIVED", "R-3"))
        if (card := report(site, "/reel?reel=R-3")[0])["level"] != "6":
            raise Difference(f"card: {card}")
        it.go("line")
        it.does("A/LEVEL-2", kind="fault", holds=("Scan RECEIVE first",))
        whole(site, it, 3)
    print(
        f"{forms} spellings of a label, a scan that replaces, a refusal that takes nothing, 1 reel"
        " by codes alone"
    )


def test_the_end_of_a_code(site: Site) -> None:
    """By silence, by Tab, and the same action code twice within a second."""
    from selenium.webdriver.common.keys import Keys

    with Operator(site) as it:
        it.ready()

        def by_silence() -> Any:
            it.script("document.getElementById('scan').value = ''")
            it.keys("S/M1/2")
            time.sleep(1.5)
            return "M1 slot 2" in it.text("held")

        wait_for("a slot that ended by silence", by_silence)
        after = it.turn()
        it.keys("K-2", Keys.TAB)
        if "LOADED" not in it.verdict(("accepted",), after=after)[1]:
            raise Difference(f"Tab: {it.text('verdict')}")

        def read_twice() -> Any:
            it.keys("S/M1/2", Keys.ENTER, "A/UNLOAD", Keys.ENTER, "A/UNLOAD", Keys.ENTER)
            return wait_for(
                "it is taken", lambda: it.script("return !Number(document.body.dataset.untaken)")
            ) and "read twice" in it.text("held")

        wait_for("an action read twice", read_twice)
        it.scan("S/M1/1")
        wait_for("a slot that waits for a reel", lambda: "M1 slot 1" in it.text("held"))
        it.scan("A/CANCEL")
        unloads = [scan["word"] for scan in it.scans()].count("MaterialsUnloaded")
        it.does("S/M1/2", "K-2")
    print(f"silence, Tab, and a code read twice: {unloads} unloaded, and no action that waits")
