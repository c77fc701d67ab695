"""What a reader does on the page of docs/: by mouse and by keyboard, at three widths, and with a screen reader's eyes.

After each act the page's script is given to the program, and the page has to show what the program writes."""
import json
import random
import time

from formats import DRAWN, parts
from selenium.webdriver.common.action_chains import ActionChains
from selenium.webdriver.common.by import By
from selenium.webdriver.common.keys import Keys

WIDTHS = ((390, 844), (900, 700), (1280, 800))
SIZES = ((390, 844), (1366, 650), (1280, 800))
MOST_STOPS = 70  # of the Tab key, on the page of docs/
SPOKEN = ["trouble alert", "news polite"]
CALM = "document.querySelector('#news').getAttribute('aria-live')"
FIRST = ["#play", "#lesson=shown_migration", "#lesson=shown_carry", "#lesson=shown_rounds", "#lesson=shown_clock", "theme",
         "explained", "paper", "deadline", "start"]
LIGHTHOUSE = ("identical-links-same-purpose", "label-content-name-mismatch", "table-fake-caption", "target-size", "td-has-header")
FINDINGS = "({violations}) => violations.map(({id, nodes}) => `${id}: ${nodes.map(({target}) => target.join(' ')).join(', ')}`)"
MIXED = "#scheme=7&script=start+0+1+4161+1;start+0+2+5+1;stop+0+9+1;tick+4161;bad"
LOOKED_AT = ("#lesson=shown_carry", "#lesson=shown_rounds&step=6", "#lesson=shown_clock&step=2", f"{MIXED}&step=7",
             f"{MIXED}&step=4&compare")


class Reader:
    """A tab with the page, and what compares it. `same` tells whether a step shows an entry of `show`."""

    def __init__(self, tab, open_page, shown, same):
        self.tab, self.open_page, self.shown, self.same = tab, open_page, shown, same
        self.faults = []

    def open(self, width=1280, height=800, link="", **how):
        self.open_page(width, height, link, **how)

    def expect(self, what, got, wanted):
        if got != wanted:
            self.faults.append(f"{what}: {got}, and not {wanted}")

    def wait(self, expression, wanted):
        until = time.monotonic() + 30
        while (got := self.tab.value(expression)) != wanted and time.monotonic() < until:
            time.sleep(0.05)
        self.expect(expression, got, wanted)

    def find(self, selector):
        return self.tab.driver.find_element(By.CSS_SELECTOR, selector)

    def click(self, selector):
        self.find(selector).click()

    def keys(self, *keys):
        ActionChains(self.tab.driver).send_keys(*keys).perform()

    def type(self, selector, text):
        self.find(selector).send_keys(Keys.CONTROL, "a", Keys.NULL, text, Keys.ENTER)

    def current(self):
        return json.loads(self.tab.value("current()"))

    def script(self):
        script, options = self.tab.value("[play.script, play.options]")
        return script.encode("latin-1"), options

    def as_shown(self, what, lines=None):
        """The page's last step is what the program writes for its script, which has these lines."""
        script, options = self.script()
        if lines is not None:
            self.expect(f"{what}, the script", script.decode().split("\n")[:-1], lines)
        step, entry = self.current(), self.shown(script, options)[-1]
        if step["now"] != entry["now"] or not self.same(step, entry):
            self.faults.append(f"{what}: {step['now']} {step['buckets']}, and not {entry['now']} {entry['buckets']}")


def acts(reader):
    """Starts, stops, restarts and advances, by their buttons."""
    reader.open()
    reader.click("#clear")
    lines = []
    for deadline, place in (("130", "wheel 1 slot 2"), ("70", "wheel 1 slot 1"), ("5", "wheel 0 slot 5")):
        lines.append(f"start 0 {len(lines) + 1} {deadline} 1")
        reader.tab.run(f"setDeadline({deadline}n)")
        reader.expect("where it would go", reader.find("#preview").text, f"goes to {place}")
        reader.type("#deadline", deadline)
        reader.as_shown(f"a start for {deadline}", lines)
    reader.click("#next")
    reader.as_shown("the next event", [*lines, "tick 5"])
    reader.click("#tick1")
    reader.tab.run("advance(64n)")
    lines += ["tick 5", "tick 1", "tick 64"]
    reader.as_shown("ticks", lines)
    reader.type("#serial", "1")
    reader.tab.run("setDeadline(5000n)")
    reader.click("#restart")
    reader.as_shown("a restart", [*lines, "restart 0 4 1 4930 1"])
    reader.click("#undo")
    reader.as_shown("undone", lines)
    reader.type("#serial", "1")
    reader.click("#stop")
    reader.as_shown("a stop", [*lines, "stop 0 4 1"])
    reader.tab.run("go(play.steps.findIndex(({now}) => now === 64n) + 1)")
    reader.click("#tick1")
    reader.as_shown("an act within a line of ticks", [*lines[:5], "tick 58", "tick 1"])
    reader.tab.run("slide(4)")
    reader.tab.run("advance(64n)")
    reader.as_shown("an act at an earlier step", [*lines[:3], "tick 5", "tick 64"])
    reader.open(link="#scheme=7&script=start+0+1+70+1&step=1")
    for wanted in (["tick 64"], ["tick 64", "tick 6"], ["tick 64", "tick 6"]):
        reader.click("#next")
        reader.as_shown("a step on after the last", ["start 0 1 70 1", *wanted])
    reader.expect("nothing is pending", reader.find("#next").get_attribute("aria-disabled"), "true")
    reader.expect("one player", reader.tab.value("[...document.querySelectorAll('button')].filter((node) => node.checkVisibility() &&"
                  " /tick|event|step|play/i.test(nameOf(node)) && !node.closest('.controls, #lines, .history')).map(nameOf)"), [])


def in_place(reader):
    """The buttons stay where they are on the screen after each act, at three widths. There is a way back to the lesson."""
    for width, height in ((1280, 900), (900, 900), (900, 700), (390, 844)):
        for name in ("#starter button", "#restart", "#stop", "#undo", "#undo", "#clear"):
            if name == "#starter button":
                reader.open(width, height)
                reader.expect("no way back is needed", reader.find("#changed").is_displayed(), False)
            elif name == "#undo":
                reader.expect(f"a way back at {width} pixels", reader.find("#changed").is_displayed(), True)
            top = f"Math.round(document.querySelector('{name}').getBoundingClientRect().top)"
            if width < 600 and name == "#starter button":
                reader.tab.run("document.querySelector('#hands').scrollIntoView({block: 'center', behavior: 'instant'})")
            before = reader.tab.value(top)
            reader.click(name)
            moved = reader.tab.value(top) - before
            reader.expect(f"{name} moved by {moved} at {width} pixels", abs(moved) <= 1, True)  # rounded
            bar = reader.tab.value("document.querySelector('#controls').getBoundingClientRect().top")
            reader.expect(f"{name} is in view at {width} x {height}", 0 <= before < bar - 30, True)
    reader.open()
    reader.click("#starter button")
    reader.click("#lesson")
    reader.wait("[play.name, shown.step]", ["shown_migration", 1])
    reader.expect("the lesson is back", reader.find("#changed").is_displayed(), False)


def rings_stay(reader):
    """What a reader does first, in each lesson, moves no ring and makes none smaller, at three sizes."""
    acts = ["$('tick1').click()", "$('starter').requestSubmit()", "setDeadline(play.now(shown.step) + 300000n); $('starter').requestSubmit()",
            "$('stop').click()", "setDeadline(play.now(shown.step) + 5000n); $('restart').click()", "cards.get(0).acts.turn(0, 5)",
            "go(play.last); $('next').click()", "$('clear').click()"]
    for width, height in SIZES:
        reader.open(width, height)
        for lesson in ("migration", "carry", "rounds", "clock"):
            for act in acts:
                reader.tab.run(f"history.replaceState(null, '', '#lesson=shown_{lesson}&step=2'); loadLink()")
                before = reader.tab.value("places()")
                reader.tab.run(act)
                after = reader.tab.value("places()")
                moved = {name: (place, after.get(name)) for name, place in before.items() if after.get(name) != place}
                reader.expect(f"{lesson} at {width}, {act}", moved, {})


def many_wheels(reader):
    """Four wheels and ten: the lowest and what is said are on the screen at each step, at two sizes."""
    four = [3, 70, 5000, 300000]
    for width, height in ((1280, 800), (390, 844)):
        for intervals in (four, [64**k + 1 for k in range(10)]):
            script = ";".join(f"start+0+{at}+{interval}+1" for at, interval in enumerate(intervals, 1))
            reader.open(width, height, f"#scheme=7&script={script}&step=1")
            for step in range(1, len(intervals) + 9):
                reader.expect(f"{len(intervals)} wheels at {width}, step {step}", reader.tab.value("unseen()"), [])
                reader.click("#next")


def refused(reader):
    """A deadline that has passed, or is after the last tick, is said to be so, and starts nothing."""
    reader.open()
    before = reader.script()
    for typed, said in (("0", "has passed"), ("9" * 19, "after the last tick"), ("9" * 30, "after the last tick"), ("x", "a number, please")):
        reader.type("#deadline", typed)
        reader.click("#starter button")
        reader.expect(f"what is said of {typed}", reader.find("#preview").text, said)
        reader.expect(f"the script after {typed}", reader.script(), before)


def carries(reader):
    """Where the next tick carries up to the digit for which a timer waits, the page says so, with powers of 64."""
    nine = "The next tick is a carry: nine digits go from 63 to 0, and digit 9 becomes 1. The deadline lies behind it. "
    one = "The next tick is a carry: digit 0 goes from 63 to 0, and digit 1 becomes 2. "
    far = "The deadline lies behind it. "
    for link, wanted, unwanted in (
        ("#lesson=shown_carry&step=1", (nine, "That slot is for 64⁹ ticks, from tick 64⁹ on, and is emptied at tick 64⁹."), ()),
        ("#lesson=shown_carry&step=2", ("one slot for 64⁹ ticks, from tick 64⁹ on, and can't tell them apart.",), ("a carry",)),
        ("#scheme=7&first=127&script=start+0+1+3+1&step=1", (one + far,), ()),
        ("#scheme=7&first=127&script=start+0+1+1+1&step=1", (one,), (far,)),
        ("#scheme=7&first=127&script=start+0+1+4000+1&step=1", (), ("a carry",)),
        ("#scheme=7&first=126&script=start+0+1+3+1&step=1", (), ("a carry",)),
    ):
        reader.open(link=link)
        said = reader.find("#news").get_attribute("textContent")
        reader.expect(f"{link} says", [words for words in wanted if words not in said], [])
        reader.expect(f"{link} also says", [words for words in unwanted if words in said], [])
    reader.open(link="#lesson=shown_carry")
    reader.expect("what isn't drawn", "not drawn: wheels that stay empty" in reader.find("#legend").text, True)


def hands(reader):
    """The hand is dragged and pushed, and a slot is aimed at."""
    reader.open()
    reader.click("#clear")
    reader.type("#deadline", "130")
    reader.tab.run("document.querySelector('#wheels').scrollIntoView({block: 'end'})")
    middle = "(() => { const {a, e, f} = cards.get(0).svg.getScreenCTM(); return [e, f, 60 * a] })()"
    x, y, far = map(int, reader.tab.value(middle))
    drag = ActionChains(reader.tab.driver, duration=50)
    drag.w3c_actions.pointer_action.move_to_location(x + 2, y - far).pointer_down()
    drag.w3c_actions.pointer_action.move_to_location(x + far // 2, y - far // 2).move_to_location(x + far, y + 3).pointer_up()
    drag.perform()
    reader.as_shown("the hand dragged to a quarter", ["start 0 1 130 1", "tick 16"])
    reader.tab.run("document.querySelector('[data-focus=hand-hier-0]').focus()")
    reader.keys(Keys.ARROW_RIGHT)
    reader.as_shown("the hand pushed", ["start 0 1 130 1", "tick 16", "tick 1"])
    reader.expect("the focus after a push", reader.tab.value("focused()"), "hand-hier-0")
    reader.tab.run("document.querySelector('[data-focus=hand-hier-1]').focus()")
    reader.keys(Keys.ARROW_UP)
    reader.as_shown("the hand of wheel 1", ["start 0 1 130 1", "tick 16", "tick 1", "tick 47"])
    x, y, far = map(int, reader.tab.value("(() => { const {a, e, f} = cards.get(1).svg.getScreenCTM(); return [e, f, 88 * a] })()"))
    aim = ActionChains(reader.tab.driver)
    aim.w3c_actions.pointer_action.move_to_location(x + far, y + 4).click()
    aim.perform()
    reader.expect("the slot aimed at", reader.tab.value("document.querySelector('#deadline').value"), str(16 * 64))


def schemes(reader):
    """The same script on each scheme, and other slots."""
    reader.open(link="#lesson=shown_rounds")
    reader.tab.run("go(play.last - 2)")
    now = reader.tab.value("document.querySelector('#now').textContent")
    for number, name in sorted(DRAWN.items(), key=lambda choice: choice[0] == "6"):
        reader.tab.run(f"$('scheme').value = '{number}'; changeScheme()")
        reader.expect(f"scheme {number}", reader.tab.value("play.scheme.name"), name)
        reader.expect(f"the tick on scheme {number}", reader.tab.value("document.querySelector('#now').textContent"), now)
        reader.tab.run("go(play.last - 3); go(play.last)")
        reader.as_shown(f"scheme {number}")
        reader.tab.run("go(play.last - 2)")
        now = reader.tab.value("document.querySelector('#now').textContent")
    reader.type("#slots", "3")
    reader.tab.run("go(play.last)")
    reader.as_shown("three slots")
    reader.expect("the slots", reader.script()[1][-1], "3")
    reader.type("#slots", "0")
    reader.expect("no slots are refused", "refuses" in reader.find("#trouble").text, True)
    reader.expect("the slots stay", reader.script()[1][-1], "3")


def places(entry):
    return {timer.split(":")[0]: place for place, timers in entry["buckets"] for timer in timers}


def looked(reader, script, slots):
    """At how many timers each scheme looks, one tick after another, by what `show` writes."""
    single = []
    for line in script.decode().split("\n")[:-1]:
        single += ["tick 1"] * int(line.split(" ")[1]) if line.startswith("tick ") else [line]
    text = "".join(f"{line}\n" for line in single).encode()
    looks = []
    for options in (["--scheme", "plain"], ["--scheme", "hashed", "--slots", str(slots)], []):
        entries = reader.shown(text, options)
        sum_of = 0
        for line, before, after in zip(single[1:], entries, entries[1:]):
            if line != "tick 1":
                continue
            old, new = places(before), places(after)
            expired = sum(parts(answer)[0] == "expired" for answer in after["answers"])
            if "plain" in options:
                sum_of += len(old)
            elif "hashed" in options:
                sum_of += sum(place == f"slot {int(after['now']) % slots}" for place in old.values())
            else:
                sum_of += expired + sum(old[serial] != place for serial, place in new.items())
        looks.append(sum_of)
    return looks


def compared(reader):
    """Schemes 1, 6 and 7 side by side: how many timers they looked at, and where these stand."""
    script = "start 0 1 130 1;start 0 2 5 1;start 0 3 4161 1;tick 70;stop 0 4 3;start 0 5 64 2;restart 0 6 1 100 3;tick 200"
    reader.open(link=f"#scheme=7&script={script.replace(' ', '+')}&step=99")
    reader.click("#compare")
    numbers = "[...document.querySelectorAll('.column strong')].map((node) => parseInt(node.textContent, 10))"
    wanted = looked(reader, reader.script()[0], 8)
    reader.expect("timers looked at", reader.tab.value(numbers), wanted)
    reader.tab.run("go(play.steps.findIndex(({line}) => line === 6) + 1)")
    read = "[...document.querySelectorAll('.column')].map((node) => [...node.querySelectorAll('.bucket')].map(bucket))"
    chips = reader.tab.value("[...document.querySelectorAll('.column .chip')].map((chip) => chip.textContent)")
    reader.expect("chips that are no serial", [chip for chip in chips if not chip.isdecimal()], [])
    first = b"".join(line + b"\n" for line in reader.script()[0].split(b"\n")[:7])
    for buckets, options in zip(reader.tab.value(read), (["--scheme", "plain"], ["--scheme", "hashed", "--slots", "8"], [])):
        if not reader.same({"buckets": buckets}, reader.shown(first, options)[-1]):
            reader.faults.append(f"{options}: {buckets}, and not {reader.shown(first, options)[-1]['buckets']}")
    reader.click("#compare")
    reader.expect("the wheels are back", reader.tab.value("document.querySelector('#wheels').checkVisibility()"), True)


def links(reader):
    """The address has the state: another reader sees the same."""
    reader.open(link="#scheme=6&slots=4&first=7&clients=2&capacity=5&script=start+0+1+9+1;tick+3&step=99&follow=1")
    reader.as_shown("a link", ["start 0 1 9 1", "tick 3"])
    options = ["--scheme", "hashed", "--slots", "4", "--first-tick", "7", "--clients", "2", "--capacity", "5"]
    reader.expect("its options", reader.script()[1], options)
    reader.tab.run("$('scheme').value = '7'; changeScheme()")
    reader.type("#deadline", "300")
    before = reader.current()
    reader.wait("location.hash.includes('300') || location.hash.includes('290')", True)
    reader.wait("location.hash.includes('&first=7&clients=2&capacity=5&')", True)
    reader.open(link=reader.tab.value("location.hash"), keep=True)
    reader.expect("the same by its link", reader.current()["buckets"], before["buckets"])
    reader.open(link="#lesson=shown_clock&step=3", keep=True)
    reader.expect("a lesson's step", reader.tab.value("document.querySelector('#at').textContent"), "3 of 4")
    reader.open(link="#scheme=clock&first=8640000&script=tick+1", keep=True)
    reader.expect("what is refused", reader.find("#trouble").text, "The program refuses this: first tick above 8639999")
    reader.open(link="#scheme=7&script=nonsense&step=1", keep=True)
    reader.expect("a bad script is said to be", "bad" in reader.find("#news").text, True)
    reader.tab.run("$('edit').open = true")
    reader.wait("$('text').value", "nonsense\n")
    reader.tab.run("$('text').value = 'start 0 1 5 7\\ntick 5'")
    reader.click("#apply")
    reader.tab.run("go(play.last)")
    reader.as_shown("a script that is typed", ["start 0 1 5 7", "tick 5"])


def by_keyboard(reader):
    """Without a mouse: each control is reached, and the focus is never lost."""
    reader.open()
    reader.tab.run("slide(1)")
    stops = []
    while len(stops) <= MOST_STOPS:
        reader.keys(Keys.TAB)
        stop = reader.tab.value("focused()")
        if stop in ("body", "html") or stops and stop == stops[0]:
            break
        stops.append(stop)
    reader.expect("the first stops", stops[:len(FIRST)], FIRST)
    ids = reader.tab.value("[...document.querySelectorAll('button[id], input[id], select[id]')].filter((node) =>"
                           " node.checkVisibility()).map(({id}) => id)")
    reader.expect("never reached", [name for name in ids if name not in stops], [])
    reader.expect("stops of the Tab key that come twice", sorted({stop for stop in stops if stops.count(stop) > 1}), [])
    reader.expect("so many stops of the Tab key", len(stops) <= MOST_STOPS, True)
    reader.open()
    reader.keys(Keys.TAB, Keys.ENTER)
    reader.expect("after the skip link", reader.tab.value("focused()"), "play")
    reader.tab.run("document.querySelector('#deadline').focus()")
    ActionChains(reader.tab.driver).key_down(Keys.CONTROL).send_keys("a").key_up(Keys.CONTROL).send_keys("9", Keys.ENTER).perform()
    reader.as_shown("a start by keyboard")
    reader.open(link="#lesson=shown_rounds&step=3", keep=True)
    for selector in (".chip", ".history button", "#lines button[tabindex='0']"):
        reader.tab.run(f"document.querySelector(\"{selector}\").focus()")
        had = reader.tab.value("focused()")
        reader.keys(Keys.ENTER)
        reader.expect(f"the focus after Enter at {selector}", reader.tab.value("focused()"), had)
    reader.open(900, 700, "#lesson=shown_clock")
    reader.tab.run("go(2); document.querySelector('.scroll').focus()")
    reader.keys(Keys.ARROW_RIGHT)
    reader.expect("the focus after a step from the digits", reader.tab.value("[focused(), shown.step]"), ["digits", 3])
    reader.open(link="#lesson=shown_rounds&step=3", keep=True)
    reader.tab.run("go(play.last - 1); document.querySelector('#next').focus()")
    reader.keys(Keys.ENTER, Keys.ENTER)
    reader.expect("the focus at the end", reader.tab.value("focused()"), "next")
    reader.open(link="#lesson=shown_rounds&step=3", keep=True)
    for selector in ("#lines button[tabindex='0']", "#wheels .chip"):
        reader.tab.run(f"document.querySelector(\"{selector}\").focus()")
        had = reader.tab.value("focused()")
        reader.keys(Keys.ARROW_DOWN)
        reader.expect(f"another after an arrow at {selector}", reader.tab.value("focused()") != had, True)
        reader.keys(Keys.ARROW_UP)
        reader.expect(f"back at {selector}", reader.tab.value("focused()"), had)


def accessible(reader):
    """Names, roles, contrast and what is spoken, in light and dark, at three widths."""
    for width, height in WIDTHS:
        for is_dark in (False, True):
            reader.open(width, height, is_dark=is_dark)
            for link in ("#lesson=shown_migration&step=3", "#lesson=shown_rounds&step=6", "#lesson=shown_clock&step=2"):
                reader.open(width, height, link, is_dark=is_dark, keep=True)
                where = f"{link} at {width} pixels{', dark' if is_dark else ''}"
                reader.expect(f"too faint, {where}", reader.tab.value("faint()"), [])
                reader.expect(f"misused, {where}", reader.tab.value("misused()"), [])
                reader.expect(f"without a name, {where}", reader.tab.value("unnamed()"), 0)
                reader.expect(f"stops of the Tab key, {where}", reader.tab.value("needless()"), [])
                reader.expect(f"wider than the screen, {where}",
                              reader.tab.value("document.documentElement.scrollWidth > window.innerWidth"), False)
            reader.tab.run("document.querySelector('#compare').click()")
            reader.expect(f"compared at {width}", [reader.tab.value("faint()"), reader.tab.value("misused()")], [[], []])
    reader.expect("what is spoken", reader.tab.value("spoken()"), SPOKEN)
    reader.tab.run("go(0); document.querySelector('#play').click()")
    reader.expect("what is spoken while it plays", reader.tab.value(CALM), "off")
    reader.tab.run("document.querySelector('#play').click()")
    reader.expect("and then", reader.tab.value(CALM), "polite")


def by_axe(reader, source):
    """axe-core finds nothing, also by the rules that Lighthouse adds. In the dark only colours differ."""
    further = {rule: {"enabled": True} for rule in LIGHTHOUSE}
    how = {"light": {"rules": further}, "dark": {"runOnly": ["color-contrast"]}}
    for width, height in WIDTHS:
        reader.open(width, height)
        reader.tab.run(source)
        for link in LOOKED_AT:
            reader.tab.run(f"history.replaceState(null, '', '{link}'); loadLink()")
            for theme, options in how.items():
                reader.tab.run(f"setTheme('{theme}')")
                look = f"axe.run(document, {json.dumps({'resultTypes': ['violations'], 'preload': False, **options})})"
                reader.expect(f"{link} at {width} pixels, {theme}", reader.tab.value(f"{look}.then({FINDINGS})"), [])


def arrows(reader):
    """No arrow runs through a text or a ring, at three widths."""
    own = "#scheme=7&script=start+0+1+4161+1;start+0+2+4097+1;start+0+3+130+1;start+0+4+63+1;tick+4161&step=1"
    four = "#scheme=7&script=start+0+1+266305+1;start+0+2+262207+1;start+0+3+262300+1;tick+262144;tick+4160&step=1"
    for width, height in WIDTHS:
        for link in ("#lesson=shown_migration", "#lesson=shown_carry", "#lesson=shown_clock", own, four):
            reader.open(width, height, link)
            for step in range(1, reader.tab.value("play.last") + 1):
                reader.tab.run(f"slide({step})")
                reader.expect(f"{link}, step {step}, at {width} pixels", reader.tab.value("crossed()"), [])


def busiest(entries):
    """The lines at which the most timers go from one bucket to another."""
    changed = []
    for line, (before, after) in enumerate(zip(entries, entries[1:]), 2):
        old, new = places(before), places(after)
        changed.append((sum(old.get(serial, place) != place for serial, place in new.items()), line))
    return [line for count, line in sorted(changed)[-3:] if count]


def long_scripts(reader, case, path):
    """A script whose whole `show` is too much for the page: the places are asked for step by step, to and fro. The present
    line is always in sight."""
    reader.open_page(1280, 800, "", path=path)
    reader.expect(f"{case.name} is long", reader.tab.value("play.isShort"), False)
    entries = reader.shown(case.script, case.options)
    chance = random.Random(7)
    last = len(entries)
    jumps = [chance.randrange(1, last - 40) for _ in range(4)] + [1, last]
    lines = [line for jump in jumps for line in (jump, jump + 1, jump + 2, jump + 1) if line <= last]
    lines += [line for busy in busiest(entries) for line in range(busy - 2, busy + 2)]
    lines += [*range(last - 30, last), *range(last, last - 45, -1)]
    for line in lines:
        reader.tab.run(f"go(lines.stepsOf[{line - 1}].at(-1))")
        step, entry = reader.current(), entries[line - 1]
        if step["now"] != entry["now"] or not reader.same(step, entry) or step["line"] != line:
            reader.faults.append(f"{case.name}, line {line}: it shows other timers")
        if not reader.tab.value("lineIsSeen()"):
            reader.faults.append(f"{case.name}, line {line} is out of sight")


def speed(reader, path):
    """20,000 lines: how long they take to open, and a step. Only looked at: a busy machine is no failure."""
    reader.open_page(1280, 800, "", path=path)
    opened = reader.tab.value("shown.openedAt")
    times = "(() => { go(play.last - 60); const times = []; for (let k = 0; k < 50; k += 1) { const start = performance.now();" \
        " go(shown.step + 1); document.body.getBoundingClientRect(); times.push(performance.now() - start); }" \
        " return times.sort((a, b) => a - b); })()"
    steps = reader.tab.value(times)
    print(f"20,000 lines: open after {opened:.0f} ms; a step takes {steps[25]:.1f} ms, {steps[-1]:.1f} ms at most")
    reader.expect("the lines", reader.tab.value("play.lines.length"), 20000)
