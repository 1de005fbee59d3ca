"""More threads than a page lists at first, and more frames than it may have."""
import re

from pages import Graph, Page, expect, fail
from views import put_traces, span


def try_listed(driver, program, folder):
    """Threads stand by busy time, in the choice too, and bars are as wide as what is narrowed to makes them."""
    busy = {thread: 1 + 7_919 * thread % 3_001 for thread in range(300)}
    ranked = sorted(busy, key=lambda thread: -busy[thread])
    put_traces(folder, {"threads.json": [span(1, thread, f"name {thread}", 0, length) for thread, length in busy.items()]})
    page = Page(driver, program, ["threads.json"], folder=folder)
    lines = "return [...document.querySelectorAll('#graphs summary')].map(e => e.innerText.trim()).filter(line => line.startsWith('busy'))"
    said = [re.match(r"busy ([\d,]+) .*thread (\d+) of process 1$", line.replace("\n", " ")) for line in page.run(lines)]
    expect("the threads that are listed", [(line[2], line[1]) for line in said], [(str(at), f"{busy[at]:,}") for at in ranked[:50]])
    expect("the threads to choose", page.run("return [...thread.options].map(option => option.innerText)"), ["all threads", *map(str, ranked)])
    page.click("#more-graphs")
    expect("threads after more are asked for", len(page.run(lines)), 250)
    bars = "return [...document.querySelectorAll(arguments[0])].slice(0, 2).map(e => parseFloat(e.style.getPropertyValue('--bar')))"
    for words, shown in [("", ranked), ("299", [299]), ("9 -1 -3", [at for at in ranked if "9" in str(at) and not set("13") & set(str(at))])]:
        page.write(words)
        wanted = [round(100 * busy[at] / busy[shown[0]], 3) for at in shown[:2]]
        for place in ["#names td.barred", "#graphs .busy"]:
            expect(f"bars of {place} with {words!r}", [round(width, 3) for width in page.run(bars, place)], wanted)
    page.expect_silence()


def try_left_out(driver, program, folder):
    """A thread of spans that all cross, so that any run of neighbors is the stack of a frame, 4,194,856 of them, and a small one."""
    crossing = [span(1, 1, f"f{place}", place, 2_896) for place in range(2_896)]
    put_traces(folder, {"left_out.json": [*crossing, span(1, 2, "small", 0, 5)]})
    page = Page(driver, program, ["left_out.json"], folder=folder)
    expect("what is left out", page.text("#left-out"), "1 graph is left out: the graphs of a page have at most 4,194,304 frames in all, "
           "and a graph that has more than those before it leave is left out.")
    line = page.text("#graphs > p")
    if not line.endswith("thread 1 of process 1, left out: too many frames"):
        fail(f"{line!r} in the place of a graph that is left out")
    page.click("#names tbody tr:nth-child(3)")
    expect("calls of what is left out", (page.text("#calls-notes"), page.run("return document.getElementById('calls-lists').checkVisibility()")),
           ("The stacks of thread 1 are left out of the page, and so of these times.", False))
    page.click("#calls-close")
    expect("names in a graph beside it", [box[0] for box in Graph(page, 1).boxes()[1]], ["small"])
    page.expect_silence()


def try_many_threads(driver, program, folder):
    try_listed(driver, program, folder)
    try_left_out(driver, program, folder)
