"""The self-test of tools/page in a browser: pages and the editor as they are seen, pointed at, stepped through and printed."""
import json
import os
import struct
import tempfile

from page_browser import Browser
from page_tests import EXAMPLES, HOSTILE, MANY, STEPPED, Tests, live_lines
from page_tests_server import serving
from page_text import shown

SHEETS = [*STEPPED, "neighbours"]
LIVE = """[...document.querySelectorAll(".live tbody tr")].map(row => {
  const [id, base, size, exposed] = [...row.children].map(cell => cell.textContent);
  return `live ${id} base=${base} size=${size}` + (exposed ? " exposed" : "");
})"""


def try_browser(tests: Tests, program: str) -> None:
    with tempfile.TemporaryDirectory() as room:
        browser = Browser(program, room)
        try:
            for part in (try_steps, try_pointing, try_widths, try_sheets, try_hostile_pages, try_many, try_editor):
                part(tests, browser)
        finally:
            browser.close()


def given_with(name: str) -> list[str]:
    script = f"{EXAMPLES}/{name}.script"
    return ["--script", script] if os.path.exists(script) else []


def opened(tests: Tests, browser: Browser, name: str, *words: str) -> float:
    """Opens the page of a source; answers after how many seconds it was loaded."""
    path = tests.file("page.html", tests.page(name, *words))
    took = browser.open(f"file://{path}")
    tests.same(f"{os.path.basename(name)}: the page's scripts fail at nothing", [], browser.faults())
    return took


def count(browser: Browser, selector: str) -> int:
    return browser.run(f"document.querySelectorAll({selector!r}).length")


def try_steps(tests: Tests, browser: Browser) -> None:
    """The list of what lives follows the arrow keys, the buttons and the slider."""
    for name in STEPPED:
        source, given = f"{EXAMPLES}/{name}.c", given_with(name)
        journal = tests.program("pv_replay", "write", source, *given).stdout.decode()
        opened(tests, browser, source, *given)
        tests.same(f"{name}: bars", journal.count("create "), count(browser, ".bar"))
        marks = [count(browser, f".mark{kind}") for kind in (".low", ".high", ".use")]
        tests.same(f"{name}: marks", [journal.count("\npair "), journal.count("\npair "), journal.count("\nuse ")], marks)
        browser.run("var slider = document.querySelector('.stepper input')")
        last = browser.run("document.querySelector('.answer').memory.last")
        for turn in (last, last // 2, last // 3, 0):
            browser.run(f"slider.value = {turn}; slider.dispatchEvent(new Event('input'))")
            tests.same(f"{name}: the list at turn {turn}", live_lines(journal, turn), browser.run(LIVE))
    try_keys(tests, browser, journal)


def try_keys(tests: Tests, browser: Browser, journal: str) -> None:
    """Keys step by turns, with Shift by events; the page is that of the last run, at turn 0."""
    turn = "document.querySelector('.answer').memory.turn"
    told = []
    for key in (">", ">", "shift >", "shift >", "<", "shift <", "shift <"):
        browser.press("ArrowRight" if ">" in key else "ArrowLeft", "shift" in key)
        told.append(browser.run(turn))
    turns = sorted({int(line.partition("turn=")[2].split()[0]) for line in journal.splitlines() if "turn=" in line})
    first = next(turn for turn in turns if turn > 2)
    second = next(turn for turn in turns if turn > first)
    before = [turn for turn in turns if turn < second - 1]
    tests.same("arrow keys", [1, 2, first, second, second - 1, before[-1], before[-2]], told)
    browser.run("document.querySelector('[data-step=next]').click()")
    tests.same("a button", before[-1], browser.run(turn))
    browser.run("document.querySelector('.stepper input').focus()")
    browser.press("ArrowRight")
    tests.same("the slider's own keys", before[-1] + 1, browser.run(turn))
    tests.same("the slider's own keys: the list", live_lines(journal, before[-1] + 1), browser.run(LIVE))
    browser.run("document.querySelector('.story li:last-child [data-turn]').click()")
    tests.same("a line of the story leads to its turn", turns[-1], browser.run(turn))


def try_pointing(tests: Tests, browser: Browser) -> None:
    """What the pointer is over tells its events, and a click goes to the turn there."""
    browser.width(1400)
    opened(tests, browser, f"{EXAMPLES}/settled_by_a_step.c", *given_with("settled_by_a_step"))
    for selector, holds in {
        ".bar[data-id='x#1']": "create x#1 turn=0", ".mark.use circle": "use 1 turn=16 test=live",
        ".mark.low path": "pair 1 turn=14 address=0x100000004",
    }.items():
        left, top, width, height = box_of(browser, selector)
        browser.point(left + min(width / 2, 90), top + height / 2)
        told = browser.run("document.querySelector('.events').textContent")
        tests.holds(f"pointing at {selector}", holds in told, told)
    browser.point(5, 5)
    tests.same("pointing at nothing", "fault turn=30", browser.run("document.querySelector('.events').textContent"))
    left, top, width, height = box_of(browser, ".canvas")
    browser.click(left + width / 2, top + height / 2)
    tests.holds("a click", 7 <= browser.run("document.querySelector('.answer').memory.turn") <= 20)


def box_of(browser: Browser, selector: str) -> list[float]:
    """Where an element is seen, when it was brought into sight."""
    browser.run(f"var element = document.querySelector({selector!r}); element.scrollIntoView({{block: 'center'}})")
    return browser.run("(box => [box.left, box.top, box.width, box.height])(element.getBoundingClientRect())")


def try_widths(tests: Tests, browser: Browser) -> None:
    """At 360 and at 1400 pixels nothing is wider than the page, and what is told fits its boxes; in the dark too."""
    for name in SHEETS:
        opened(tests, browser, f"{EXAMPLES}/{name}.c", *given_with(name))
        for width in (360, 1400):
            browser.width(width)
            tests.same(f"{name}: at {width} pixels", width, browser.run("document.documentElement.scrollWidth"))
            told = struct.unpack(">II", browser.picture(False)[16:24])
            tests.same(f"{name}: a picture at {width} pixels", (width, 900), told)
        tests.holds(f"{name}: the story and the source need no colour", browser.run("!document.querySelector('.source .told') || "
                    "getComputedStyle(document.querySelector('.source .told'), '::before').content.includes('▶')"))
    for scheme in ("light", "dark"):
        browser.ask("Emulation.setEmulatedMedia", features=[{"name": "prefers-color-scheme", "value": scheme}])
        for selector in ("body", ".sentence", ".facts li", ".report", ".source .line", ".source .told", ".note", "footer p"):
            ratio = browser.run(CONTRAST % selector)
            tests.holds(f"{scheme}: the contrast of {selector} is at least 4.5", ratio is None or ratio >= 4.5, ratio)
    browser.ask("Emulation.setEmulatedMedia", features=[])


# The contrast of an element's text with what is behind it, as the web's guidelines for access reckon it.
CONTRAST = """(selector => {
  const element = document.querySelector(selector);
  if (!element) return null;
  const parts = text => text.match(/[\\d.]+/g).map(Number);
  const straight = it => it <= 0.04045 ? it / 12.92 : ((it + 0.055) / 1.055) ** 2.4;
  const light = text => parts(text).slice(0, 3).map(it => straight(it / 255))
    .reduce((sum, it, index) => sum + it * [0.2126, 0.7152, 0.0722][index], 0);
  let behind = element;
  while (parts(getComputedStyle(behind).backgroundColor)[3] === 0) behind = behind.parentElement;
  const [one, other] = [getComputedStyle(element).color, getComputedStyle(behind).backgroundColor].map(light);
  return (Math.max(one, other) + 0.05) / (Math.min(one, other) + 0.05);
})(%r)"""


def try_sheets(tests: Tests, browser: Browser) -> None:
    browser.width(1400)
    for name in SHEETS:
        opened(tests, browser, f"{EXAMPLES}/{name}.c", *given_with(name))
        tests.same(f"{name}: sheets of paper", 1, browser.sheets())


def try_hostile_pages(tests: Tests, browser: Browser) -> None:
    for what, source in HOSTILE.items():
        opened(tests, browser, tests.file("hostile.c", source))
        seen = [browser.run("document.title"), browser.run("document.scripts.length"), count(browser, ".source b, .source script")]
        tests.same(f"{what}: seen", ["hostile.c", 1, 0], seen)
        text = browser.run("[...document.querySelectorAll('.source .text')].map(line => line.lastChild?.data ?? '').join('\\n')")
        tests.holds(f"{what}: its text is seen", text == shown(source).rstrip("\n"), text and text[:300])


def try_many(tests: Tests, browser: Browser) -> None:
    """The page of a run with a thousand instances is there within a second (of its own, where the machine does much beside)."""
    browser.width(1400)
    browser.ask("Performance.enable", timeDomain="threadTicks")
    took = opened(tests, browser, tests.file("many.c", MANY))
    made, loading = count(browser, ".bar"), browser.busy()
    tests.holds("a thousand instances", made >= 1000, made)
    tests.holds("a thousand instances: within a second", min(took, loading) < 1, (took, loading))
    for _ in range(10):
        browser.press("ArrowLeft")
    tests.holds("a thousand instances: ten steps within a second", browser.busy() - loading < 1, browser.busy() - loading)


def try_editor(tests: Tests, browser: Browser) -> None:
    with serving(tests) as served:
        address = f"http://127.0.0.1:{served.port}/"
        for width in (360, 1400):
            browser.width(width)
            browser.open(address)
            tests.same(f"the editor at {width} pixels", width, browser.run("document.documentElement.scrollWidth"))
        browser.run("document.querySelector('[data-example=settled_by_a_step]').click()")
        tests.holds("an example", browser.wait_for(HAS % "line=13 turn=30"))
        tests.same("an example: its marked line", "13", browser.run("document.querySelector('.source .told').dataset.line"))
        browser.press("ArrowLeft")
        tests.same("an example: a step", 29, browser.run("document.querySelector('.answer').memory.turn"))
        for mode, holds in {
            "check": "checked declarations=", "layout": "No structure or union", "settle": "undefined clause=6.5.3.2p4", "run": "turn=30",
        }.items():
            browser.run(f"answer.replaceChildren(); document.querySelector('[data-mode={mode}]').click()")
            tests.holds(f"the button {mode}", browser.wait_for(HAS % holds))
        try_link(tests, browser, address)
        try_hostile_editor(tests, browser)
        tests.same("the editor's scripts fail at nothing", [], browser.faults())
    browser.run("document.querySelector('[data-mode=run]').click()")
    tests.holds("without the server", browser.wait_for("state.textContent.includes('There was no answer')"))


# Whether the answer holds a text.
HAS = "answer.textContent.includes('%s')"


def try_hostile_editor(tests: Tests, browser: Browser) -> None:
    """What is typed shows as text, and nothing of it is an element."""
    hostile = HOSTILE["a script's end"].decode() + "\0\u202e<img src=x onerror=document.title=1>"
    browser.run(f"answer.replaceChildren(); source.value = {json.dumps(hostile)}; document.querySelector('[data-mode=run]').click()")
    tests.holds("a hostile source", browser.wait_for("answer.querySelector('.source .text') !== null"))
    seen = browser.run("answer.querySelector('.source').textContent")
    tests.holds("a hostile source: its text is seen", shown(hostile).splitlines()[1] in seen, seen)
    made = [count(browser, ".answer img, .answer script"), browser.run("document.title")]
    tests.same("a hostile source: nothing of it is an element", [0, "Valumeiro"], made)


def try_link(tests: Tests, browser: Browser, address: str) -> None:
    """A link holds source, script and bound, whatever they are."""
    texts = {"source": "int main(void) { return '&' + '#'; } // ä%41+\n", "script": "x 1 0x20000\n", "turns": "77"}
    for name, text in texts.items():
        browser.run(f"document.getElementById({name!r}).value = {json.dumps(text)}")
    browser.run("document.querySelector('#link').click()")
    tests.holds("the link", browser.wait_for("location.hash.length > 10"))
    link = browser.run("location.href")
    browser.open("about:blank")
    browser.open(link)
    tests.holds("the link leads here", link.startswith(address + "#source="), link)
    tests.same("what the link holds", list(texts.values()), browser.run("[source, script, turns].map(field => field.value)"))
