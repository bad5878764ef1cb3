"""Opens the pages in Chromium and checks what is on them. Expected figures are document 01's for plan A, or the lister's."""

import os
import sys

from browser import Browser

FOLDER = sys.argv[1]
# document 01, plan A: loads of stations 0 to 4, in units of 1 / 2^32, as six decimals
LOADS = ["0.000000", "0.666667", "1.333333", "4.000000", "0.000000"]
# document 02, C-20: the same plan of units that turn round in two slots
LOADS_NOW = ["0.000000", "0.000000", "1.000000", "2.000000", "0.000000"]
checked = 0


def same(found, expected, what):
    """Stops where something on the page is not as expected."""
    global checked
    checked += 1
    if found != expected:
        sys.exit(f"{what}: found {found!r}, expected {expected!r}")


def within(part, whole, what):
    same(part in (whole or ""), True, f"{what}: {part!r} in {whole!r}")


def path(name):
    return os.path.join(FOLDER, name)


def walk_drawn(browser):
    """The numbers of the legs that are drawn."""
    return browser.texts("#walk .leg text")


def check_loads(browser, expected):
    same(browser.texts("#loads .six"), expected, "loads")
    busiest = expected.index(max(expected, key=float))
    same(browser.texts(".station.busiest title"), [browser.texts(".station title")[busiest]], "busiest")
    same(browser.texts("#loads .busiest .note"), ["★ busiest"], "the word beside the busiest")


def check_plan_a(browser):
    browser.open(path("a-now.html"), 1280, 800)
    check_loads(browser, LOADS_NOW)
    browser.open(path("a.html"), 1280, 800)
    check_loads(browser, LOADS)
    within("5 stations, 4 slots, 12 contacts", browser.text("#summary"), "summary")
    # station 1 has load 2863311530 and 2 pairs: both bounds over 2^32, in full
    full = browser.texts("#loads .full")
    same(full[:2], ["0.6666666665114462375640869140625", "0.666666666977107524871826171875"], "low and high of station 1")
    same([float(bound) * 2**32 for bound in full[:2]], [2863311530, 2863311532], "the same in units")
    same(len(full), 6, "bounds of three stations")
    same(len(browser.texts(".contact")), 12, "contacts")
    browser.picture(path("a.png"))


def check_station(browser):
    browser.click("#s2")
    same(browser.text("#panel-title"), "Station 2: account", "panel of a station")
    rows = browser.texts("#panel-body tbody tr")
    # P5: two of three walks from 0 to 4 have station 2 inside; P2: as many from 0 to 3
    same(rows, ["0 → 322 of 30.666667", "0 → 432 of 30.666667"], "account of station 2")
    within("add up to 1.333333", browser.text("#panel-body"), "sum")
    same(walk_drawn(browser), ["1", "2"], "first walk")
    same(browser.script("document.getElementById('previous').disabled"), True, "there is none before it")
    browser.click("#next")
    browser.click("#next")
    same(browser.text("#walk-number"), "0 → 4: 1 of 2", "walks go on to the next pair")
    same(browser.text("#walk-text"), "slot 1: 0 → 2, slot 2: 2 → 3, slot 4: 3 → 4", "walk [1,5,10]")
    same(walk_drawn(browser), ["1", "2", "3"], "legs")
    same(browser.texts("tr.drawn td:first-child"), ["0 → 4"], "row of the walk")
    lanes = "[...document.querySelectorAll('{}')].map(path => path.getAttribute('d').split(' ')[0])"
    contacts = ", ".join(f"#c{position} .shaft" for position in (1, 5, 10))
    same(browser.script(lanes.format("#walk .way")), browser.script(lanes.format(contacts)), "legs lie on their contacts")
    same(browser.script("[...document.querySelectorAll('#previous, #next')].map(one => one.disabled)"), [False, False],
         "walks before and after it")
    browser.click("#loads .row[data-station='3']")
    same(browser.text("#panel-title"), "Station 3: account", "a click at the line")
    within("Load 4.000000 from 4 pairs", browser.text("#panel-body"), "account of station 3")
    browser.picture(path("a-station.png"))


def check_contact(browser):
    browser.click("#c10 .touch")
    same(browser.text("#panel-title"), "Contact in slot 4: 3 → 4", "panel of a contact")
    within("4 ordered pairs", browser.text("#panel-body"), "0, 1, 2 and 3 to 4 use it")
    # without it no walk ends at 4: station 1 keeps 1/3, station 2 keeps 2/3, station 3 keeps 1 to 2
    rows = browser.texts("#panel-body tbody tr")
    same(rows, ["1−0.3333330.333333", "2−0.6666670.666667", "3−3.0000001.000000"], "changes")
    same(browser.text("#walker"), None, "no walk is drawn")
    browser.picture(path("a-contact.png"))


def check_pair(browser):
    browser.script("document.getElementById('pick-from').value='0'; document.getElementById('pick-to').value='4'")
    browser.click("#draw")
    within("3 legs, 3 walks.", browser.text("#panel-body"), "P2")
    # P4, with C-16's positions
    walks = ["slot 1: 0 → 1, slot 2: 1 → 3, slot 4: 3 → 4", "slot 1: 0 → 2, slot 2: 2 → 3, slot 4: 3 → 4",
             "slot 1: 0 → 2, slot 3: 2 → 3, slot 4: 3 → 4"]
    same(browser.texts("#panel-body td button"), walks, "walks from 0 to 4")
    browser.script("document.getElementById('pick-from').value='2'; document.getElementById('pick-to').value='1'")
    browser.click("#draw")
    within("There is no walk.", browser.text("#panel-body"), "P6")
    same(walk_drawn(browser), [], "nothing is drawn")


def focused(browser):
    return browser.script("document.activeElement.id")


def check_keys(browser):
    browser.open(path("a.html"), 1280, 800)
    order = []
    for _ in range(9):
        browser.key("Tab")
        order.append(focused(browser))
    controls = ["pick-station", "pick-contact", "pick-from", "pick-to", "draw", "smaller", "larger", "print"]
    same(order[:8], controls, "tab order of the controls")
    if order[8] == "picture":  # a part that scrolls may be a stop
        browser.key("Tab")
    same(focused(browser), "s0", "tab to the stations")
    outline = browser.script("getComputedStyle(document.querySelector('#s0 .row')).strokeWidth")
    same(outline, "3px", "the focus can be seen")
    browser.key("ArrowDown", 2)
    same(focused(browser), "s2", "down to station 2")
    browser.key("End")
    same(focused(browser), "s4", "the last station")
    browser.key("ArrowUp")
    browser.key("Enter")
    same(browser.text("#panel-title"), "Station 3: account", "enter chooses")
    browser.key("Tab")
    same(focused(browser), "c0", "tab to the contacts")
    browser.key("PageDown")
    same(focused(browser), "c4", "the next slot")
    browser.key("ArrowRight")
    browser.key(" ")
    same(browser.text("#panel-title"), "Contact in slot 2: 2 → 3", "the space bar chooses")
    browser.key("Tab", shift=True)
    same(focused(browser), "s3", "back to the station")
    browser.key("Enter")
    browser.key("Tab", 2)
    while focused(browser) not in ("next", "play"):
        browser.key("Tab")
    browser.key("ArrowRight")
    same(browser.text("#walk-number"), "0 → 4: 2 of 3", "the right arrow draws the next walk")
    browser.key("ArrowLeft")
    same(browser.text("#walk-number"), "0 → 4: 1 of 3", "the left arrow draws the one before")
    browser.key("Escape")
    same(browser.text("#panel-title"), "Nothing chosen", "escape closes")
    same(walk_drawn(browser), [], "nothing is drawn")


def check_play(browser):
    browser.click("#s3")
    browser.click("#play")
    moved = "new Promise(done => setTimeout(() => done(document.getElementById('walk-number').textContent), 1800))"
    same(browser.script(moved), "0 → 4: 2 of 3", "playing goes on by itself")
    browser.click("#play")


def check_choices(browser):
    choose = "(one => {{ one.value = '{}'; one.dispatchEvent(new Event('change')); }})(document.getElementById('{}'))"
    browser.script(choose.format(2, "pick-station"))
    same(browser.text("#panel-title"), "Station 2: account", "a station from the list")
    browser.script(choose.format(10, "pick-contact"))
    same(browser.text("#panel-title"), "Contact in slot 4: 3 → 4", "a contact from the list")
    same(browser.script("document.getElementById('pick-station').value"), "", "the station is no longer chosen")
    width = "document.getElementById('plan').getBoundingClientRect().width"
    before = browser.script(width)
    browser.click("#larger")
    same(round(browser.script(width) / before, 2), 1.25, "a larger picture")


def check_ladder(browser):
    browser.open(path("ladder.html"), 1280, 800)
    # document 01: the last counts of a ladder of 15 layers are 2^14; half of the walks have a station of a layer inside
    browser.script("document.getElementById('pick-to').value='29'")
    browser.click("#draw")
    within("15 legs, 16384 walks; the first 64 listed, 16320 more.", browser.text("#panel-body"), "walks from 0 to 29")
    same(len(browser.texts("#panel-body tbody tr")), 64, "listed walks")
    browser.click("#s2")
    rows = browser.texts("#panel-body tbody tr")
    within("0 → 29158192 of 16384 (8 drawn, 8184 more)0.500000", " ".join(rows), "account of station 2")
    row = next(at for at, text in enumerate(rows) if text.startswith("0 → 29"))
    browser.click(f"#panel-body tbody tr:nth-child({row + 1}) button")
    same(browser.text("#walk-number"), "0 → 29: 1 of 8192", "the first of them")
    within("slot 1: 0 → 2, slot 2: 2 → 3, slot 3: 3 → 5", browser.text("#walk-text"), "it passes station 2")
    browser.click("#next")
    within("slot 14: 25 → 28, slot 15: 28 → 29", browser.text("#walk-text"), "the second ends otherwise")


def check_names(browser):
    browser.open(path("named.html"), 1280, 800)
    check_loads(browser, LOADS)
    names = ["0 spring gauge", "1 mill <north>", "2 old bridge", "3 weir mast", "4 harbour office & buoy"]
    same(browser.texts(".station title"), names, "names")
    same(browser.texts("#pick-to option"), names, "names to choose from")
    within("9 spare unit", browser.text("header .note"), "a name without a station")
    browser.click("#s3")
    same(browser.text("#panel-title"), "Station 3 weir mast: account", "name in the panel")
    within("0 spring gauge → 1 mill <north>", browser.text("#walk-text"), "names in a walk")
    browser.picture(path("named.png"))
    same(browser.paper(path("named.pdf")), 1, "sheets")
    browser.open(path("named.html"), 390, 844, phone=True)
    same(browser.script("document.documentElement.scrollWidth <= 390"), True, "no wider than a phone")
    small = "[...document.querySelectorAll('button, select')].filter(one => one.checkVisibility())" \
            ".every(one => one.getBoundingClientRect().height >= 36)"
    same(browser.script(small), True, "controls that a finger hits")
    browser.picture(path("named-phone.png"), whole=False)
    browser.click("#s3")
    browser.picture(path("named-phone-station.png"), whole=False)


def check_refused(browser):
    with open(path("refused.line"), encoding="utf-8") as file:
        line = file.read()
    words = "record not above the one before it"
    record = "position 3, slot 2, station 1 sends, station 3 (weir mast) hears"
    same(line, f"refused 5: {words}: {record}\n", "the line on standard error")
    browser.open(path("refused.html"), 1280, 800)
    same(browser.text("#number"), f"✕ 5 {words}", "number and words")
    rows = ["position3 (counted from 0)", "slot2", "senderstation 1", "hearerstation 3 (weir mast)",
            "record before itslot 2, station 2 (old bridge) sends, station 3 (weir mast) hears"]
    same(browser.texts("#fault tr"), rows, "the record at fault")
    browser.picture(path("refused.png"))
    same(browser.paper(path("refused.pdf")), 1, "sheets")


def legs_seen(browser):
    """How many legs of the drawn walk lie inside of what a phone shows of the picture."""
    return browser.script("""(() => {
        const left = document.getElementById('labels').getBoundingClientRect().right;
        const below = document.getElementById('panel').getBoundingClientRect().top;
        const boxes = [...document.querySelectorAll('#walk .leg')].map(leg => leg.getBoundingClientRect());
        return boxes.filter(b => b.left >= left && b.right <= innerWidth && b.top >= 0 && b.bottom <= below).length;
    })()""")


def check_largest_on_phone(browser, station):
    browser.open(path("largest.html"), 390, 844, phone=True)
    browser.click(f"#s{station}")
    same(legs_seen(browser) > 0, True, "a part of the walk can be seen on a phone")
    browser.picture(path("largest-phone.png"), whole=False)
    browser.script("window.scrollTo(0, 0); document.getElementById('pick-from').value='27'; "
                   "document.getElementById('pick-to').value='31'; document.getElementById('draw').click()")
    same(legs_seen(browser) > 0, True, "the first leg of a pair's walk can be seen on a phone")


def check_largest(browser):
    with open(path("largest.loads"), encoding="utf-8") as file:
        lines = file.read().splitlines()
    same(lines[0], "stations 32 slots 63 contacts 1024", "the largest plan")
    loads = [int(line.split()[2]) for line in lines[1:]]
    browser.open(path("largest.html"), 1400, 900)
    check_loads(browser, [f"{(load * 2 * 10**6 + 2**32) // 2**33 / 10**6:.6f}" for load in loads])
    same(len(browser.texts(".contact")), 1024, "contacts")
    station = loads.index(max(loads))
    browser.click(f"#s{station}")
    rows = browser.texts("#panel-body tbody tr td:last-child")
    same(len(rows), int(lines[1 + station].split()[1]), "pairs of the busiest")
    same(rows, sorted(rows, key=float, reverse=True), "pairs by share")
    browser.picture(path("largest.png"), whole=False)
    same(browser.paper(path("largest.pdf")), 1, "sheets")
    browser.click("#c500 .touch")
    within("ordered pair", browser.text("#panel-body"), "changes")
    check_largest_on_phone(browser, station)
    size = os.path.getsize(path("largest.html"))
    same(size < 4_000_000, True, f"size of the page, {size}")


def main():
    browser = Browser()
    checks = (check_plan_a, check_station, check_contact, check_pair, check_keys, check_play, check_choices, check_ladder,
              check_names, check_refused, check_largest)
    for check in checks:
        check(browser)
        same(browser.faults(), [], f"{check.__name__}: errors of the script and addresses asked for")
    browser.close()
    print(f"pages in the browser: {checked} checks")


main()
