"""What several views have in common: traces and odd names, what is read of a page, and what is checked of each."""
import json
import os

from pages import DRAWN, Keys, expect, fail

READY = 5_000  # milliseconds in which the page of the largest trace must be ready
QUICK = 3_000  # milliseconds in which it must have done what a person asks
FIRST_ROWS = 10  # of a table, as it is at first
MARKUP = "</script><img src=x onerror=alert(1)>"
TURNED = "a\u202eb\u2028c\n"
TURNED_SHOWN = "a\\u202eb\\u2028c\\u000a"
LONG = "<b>" + "long" * 2_498 + "'end\""  # 10,000 letters
BRIEF = LONG[:80] + "\u2026" + LONG[-79:]  # what is shown of it
RIGHT = '"\u05e9\u05dc\u05d5\u05dd" & \'<\' 7'


def span(process, thread, name, start, length):
    return {"ph": "X", "pid": process, "tid": thread, "name": name, "ts": start, "dur": length}


def named(what, process, thread, name):
    return {"ph": "M", "name": what, "pid": process, "tid": thread, "args": {"name": name}}


def put_traces(folder, traces):
    """Writes traces, each under its name; what isn't a list of elements stands as it is."""
    for name, trace in traces.items():
        with open(os.path.join(folder, name), "w", encoding="utf-8") as file:
            file.write(trace if isinstance(trace, str) else json.dumps(trace))


def others(page):
    """The rows of the other tables, by their summaries."""
    page.run("document.querySelectorAll('#others details').forEach(one => { one.open = true; })")
    return page.run("""
        return Object.fromEntries([...document.querySelectorAll("#others > details")].map(one => [one.querySelector("summary").innerText.trim(),
          [...one.querySelectorAll("tbody tr")].map(row => [...row.cells].map(cell => cell.innerText.trim()))]));
    """)


def refusals(page):
    """What is said of each kind of refused elements, and of the first of them."""
    page.run("document.querySelectorAll('#warnings details').forEach(one => { one.open = true; })")
    return page.run("return [...document.querySelectorAll('#warnings li')].map(item => item.innerText)")


def click_row(page, number, place="button"):
    """Clicks on a row of spans with no panel above it; one is open behind it."""
    if page.element("#calls").is_displayed():
        page.click("#calls-close")
    page.run("scrollTo(0, 0)")
    page.click(f"#names tbody tr:nth-child({number}) {place}")


def check_odd_elements(page):
    """No name or detail made an element, or stretched the page."""
    expect("elements that names made", page.run("return document.querySelectorAll('img, b:not(#counts b)').length"), 0)
    expect("scripts", page.run("return document.scripts.length"), 2)
    expect("how far the page can be scrolled aside", page.run(
        "return document.documentElement.scrollWidth - document.documentElement.clientWidth"), 0)


# Of each row of all open tables: how far left and right its cells reach, and how far down the first begins and the others.
CELLS = """
    return [...document.querySelectorAll("tbody tr")].filter(row => row.checkVisibility()).map(row => {
      const [name, ...others] = [...row.cells].map(cell => cell.getBoundingClientRect()).filter(cell => cell.width > 0);
      const all = [name, ...others];
      return { left: Math.min(...all.map(cell => cell.left)), right: Math.max(...all.map(cell => cell.right)), own: name.left,
               top: name.top, bottom: name.bottom, next: Math.min(...others.map(cell => cell.top)) };
    });
"""


def check_narrow(page, count):
    """On a phone and in print each row stands within the width, with its name above or before all else, and nothing is cut off, even if
    something was said at the right edge of a wide window."""
    page.run("arguments[0].focus()", page.element("#thread-0 .view"))
    page.press(Keys.DOWN, *[Keys.RIGHT] * 20)
    for what, width, media, is_above in [("a phone", 360, "screen", True), ("a tablet", 900, "screen", True), ("print", 718, "print", False)]:
        page.resize(width)
        page.driver.execute_cdp_cmd("Emulation.setEmulatedMedia", {"media": media})
        page.wait()
        rows = page.run(CELLS)
        expect(f"rows on {what}", len(rows), count)
        for row in rows:
            if not (0 <= row["left"] == row["own"] and row["right"] <= width):
                fail(f"a row on {what} reaches from {row['left']} to {row['right']}")
            expect(f"whether a name stands above the numbers on {what}", row["next"] >= row["bottom"], is_above)
        wide = "return [document.documentElement, ...document.querySelectorAll('.wide, td, td bdi')].map(e => e.scrollWidth - e.clientWidth)"
        if max(page.run(wide)) > 0:
            fail(f"the page is wider than {what}")
    page.driver.execute_cdp_cmd("Emulation.setEmulatedMedia", {"media": ""})
    page.resize()
    page.wait()


def order_of(page):
    """The column that leads, and how."""
    return page.run("const head = document.querySelector('#names th[aria-sort$=ending]'); return [head.innerText.trim(), head.ariaSort]")


def ready_of(page, what):
    """The time that the page took until it was ready, which must be in time."""
    ready = page.run("return performance.getEntriesByName('ready')[0].startTime")
    if ready > READY:
        fail(f"{what} is ready after {ready:.0f} ms")
    return ready


def time_of(page, what, script):
    """Does what a person would, and wants it done and drawn in time."""
    took = page.run(f"const start = performance.now(); {script}; await {DRAWN}; return performance.now() - start")
    if took > QUICK:
        fail(f"{what} took {took:.0f} ms")
    return took
