"""Views of pages whose times are nanoseconds, and of times beside which a longer unit is said."""
from apart import choose, lines_of_graphs
from pages import Graph, Keys, Page, expect
from views import check_narrow, check_odd_elements, named, order_of, others, put_traces, refusals, span

US = "\u00b5s"
HINT = " A click on a column sorts; a click on a row shows its callers and callees, and its frames in a flame graph. The address shows the view again."
MOST = 4_611_686_018_427_387  # microseconds, the most whole ones that an event can have
FAR = 9_007_199_254_741  # microseconds; no double holds all nanoseconds of two such times

# A trace with fractions, and what it must show


FRACTIONS = [
    named("process_name", 7, 1, "app"), named("thread_name", 7, 1, "main"),
    span(7, 1, "alpha", 0, 100.5), span(7, 1, "beta", 10.25, 30.125), span(7, 1, "tick", 50.001, 0.005), span(7, 1, "gamma", 200, 5),
    span(7, 2, "aside", 0.5, 1e-3),
    span(8, 1, "far", -FAR, FAR), span(8, 1, "far", 0, FAR), span(8, 1, "near", 0, 0.001),
    {"ph": "B", "pid": 8, "tid": 2, "name": "unclosed", "ts": 5.5},
    {"ph": "b", "pid": 7, "name": "load", "cat": "net", "id": 5, "ts": 1.5},
    {"ph": "e", "pid": 7, "name": "load", "cat": "net", "id": 5, "ts": 31.75},
    {"ph": "s", "pid": 7, "name": "hop", "id2": {"local": "x"}, "ts": 4.5},
    {"ph": "f", "pid": 7, "name": "hop", "id2": {"local": "x"}, "ts": 9.25},
    {"ph": "C", "pid": 7, "name": "heap", "ts": 2.5, "args": {"used": 12}},
    {"ph": "i", "pid": 7, "tid": 1, "name": "paint", "ts": 3.5, "s": "p"},
    span(7, 1, "text", "1.5", 1), span(7, 1, "later", MOST + 1, 1),
]
# Name, self, share of the thread's busy time, total, count, process and thread.
FAR_ROW = ["far", "18,014,398,509,481,999", "100.0 %", "18,014,398,509,482,000", "2", "8", "1"]
ALPHA = ["alpha", "70,370", "66.7 %", "100,500", "1", "app (7)", "main (1)"]
BETA = ["beta", "30,125", "28.6 %", "30,125", "1", "app (7)", "main (1)"]
GAMMA = ["gamma", "5,000", "4.7 %", "5,000", "1", "app (7)", "main (1)"]
TICK = ["tick", "5", "< 0.1 %", "5", "1", "app (7)", "main (1)"]
ASIDE = ["aside", "1", "100.0 %", "1", "1", "app (7)", "2"]
NEAR = ["near", "1", "< 0.1 %", "1", "1", "8", "1"]
BY_SELF = [FAR_ROW, ALPHA, BETA, GAMMA, TICK, ASIDE, NEAR]


def hint(page):
    return page.text("#names-title + .hint")


def busy_times(page):
    """What the lines of the graphs say before the thread."""
    return page.run("return [...document.querySelectorAll('#graphs .busy')].map(time => time.innerText)")


def reasons(page):
    """What is said of refused elements, without the file."""
    return [item.rpartition(" of ")[0] for item in refusals(page)]


def check_texts(page):
    """What says the unit without a time, and the head, which is as ever."""
    expect("the hint in nanoseconds", hint(page), f"Times are whole nanoseconds.{HINT}")
    expect("counts", page.text("#counts").split()[2:], "17 events 2 refused 0 skipped 0 queries 2 processes 4 threads".split())
    expect("why events were refused", reasons(page),
           ["2 \u00d7 14 NotWhole: its time or length isn't a number, or is out of range; first at element 17"])
    expect("threads that are counted", page.text("#graphs-shown"), "3 of 3 threads shown; in 1 more no span covers a nanosecond")
    expect("busy times", busy_times(page), ["busy 18,014,398,509,482,000 ns (208 d)", f"busy 105,500 ns (106 {US})", "busy 1 ns"])
    whole = page.run("return document.body.innerText")
    expect("whether microseconds are said", "microsecond" in whole, False)


def check_rows(page):
    """Rows, their sums, and their order, which the address has without a unit."""
    expect("titles", page.titles("#names"), ["name", "self, ns", "of busy", "total, ns", "count", "process", "thread"])
    expect("rows", page.rows("#names"), BY_SELF)
    for words, rows, said in [("", BY_SELF, "7 of 7 rows shown; sum of self 18,014,398,509,587,501 ns (208 d); sum of count 8"),
                              ("alp", [ALPHA], f"1 of 1 rows shown, narrowed from 7; sum of self 70,370 ns (70.4 {US}); sum of count 1"),
                              ("tick", [TICK], "1 of 1 rows shown, narrowed from 7; sum of self 5 ns; sum of count 1")]:
        page.write(words)
        expect(f"rows with {words!r}", page.rows("#names"), rows)
        expect(f"what is said with {words!r}", page.text("#names .status"), said)
    page.write("")
    page.click("#names th:nth-child(4) button")
    expect("the address by total", page.fragment(), "#sort=-total")
    page.press(Keys.ENTER)
    page.open(page.fragment())
    expect("the order of the address", (page.fragment(), order_of(page)), ("#sort=total", ["total, ns", "ascending"]))
    page.open()
    expect("the order at first", order_of(page), ["self, ns", "descending"])


def check_other_tables(page):
    expect("the other tables", others(page), {
        "Async spans (1)": [["load", "30,250", "1", "0", "0", "net", '""', "5"]],
        "Flows (1)": [["hop", "4,750", "1", "0", '""', "x (process 7)"]],
        "Counters (1)": [["heap", "used", "1", "12", "12", "12", "app (7)"]],
        "Instants (1)": [["paint", "1", "app (7)", "main (1)", "process"]],
    })
    expect("titles of async spans", page.titles("#others > details:nth-child(1)")[:3], ["name", "total, ns", "closed"])
    expect("titles of flows", page.titles("#others > details:nth-child(2)")[:3], ["name", "total, ns", "ended"])


def check_graph(page):
    """Widths, what is said of frames, marks, zooming, and the address of a zoom."""
    graph = Graph(page, 0)
    top = ("thread main (1)", 0, 105_500)
    graph.expect("the graph", 105_500, [[top], [("alpha", 0, 100_500), ("gamma", 100_500, 5_000)], [("beta", 0, 30_125)]])
    alpha = f"self 70,370 ns (70.4 {US}), total 100,500 ns (101 {US}), 95.3 %"
    for x, level, said in [
        (0.1, 2, f"beta\nself 30,125 ns (30.1 {US}), total 30,125 ns (30.1 {US}), 28.6 %"),
        (0.5, 1, f"alpha\n{alpha}"),
        (0.98, 1, f"gamma\nself 5,000 ns (5.00 {US}), total 5,000 ns (5.00 {US}), 4.7 %"),
        (0.5, 0, f"thread main (1)\nself 0 ns, total 105,500 ns (106 {US}), 100.0 %"),
    ]:
        graph.pointer(x, level).perform()
        for place in [".told", ".tip"]:
            expect(f"what {place} says", graph.text(place), f"{said} of the thread's busy time")
    for words, marked in [("beta", f"1 frame marked, 30,125 ns (30.1 {US}), 28.6 %"), ("tick", "1 frame marked, 5 ns, < 0.1 %"),
                          ("t -gamma", f"2 frames marked, together 30,130 ns (30.1 {US}), 28.6 %")]:
        page.write(words)
        expect(f"what is said of marks of {words!r}", graph.text(".graph > .status"), f"{marked} of the thread's busy time")
    page.write("")
    graph.pointer(0.5, 1).click().perform()
    expect("the address of a zoom", page.fragment(), "#zoom=7.1.1")
    item = page.run("return arguments[0].textContent", page.element(f"{graph.section} [role=treeitem]"))
    expect("what is heard of a frame", item, f"alpha: {alpha}, 2 under it")
    graph.click(".under > summary")
    expect("titles under alpha", page.titles(f"{graph.section} .under"), ["name", "total, ns", "self, ns"])
    expect("rows under alpha", page.rows(f"{graph.section} .under"), [["beta", "30,125", "30,125"], ["tick", "5", "5"]])


def try_fractions(driver, program, folder):
    put_traces(folder, {"fractions.json": FRACTIONS})
    page = Page(driver, program, ["--nanoseconds", "fractions.json"], folder=folder)
    for check in [check_texts, check_rows, check_other_tables, check_graph]:
        check(page)
    check_narrow(page, 7 + 4 + 2)  # of names, of what else was traced, and of what lies directly under a frame
    check_odd_elements(page)
    page.expect_silence()


# What is said of times, the longest first, by lengths in microseconds

LADDERS = {
    ("--nanoseconds",): {
        MOST: "4,611,686,018,427,387,000 ns (53,376 d)", 86_400_000_000: "86,400,000,000,000 ns (1.00 d)",
        3_600_000_000: "3,600,000,000,000 ns (1.00 h)", 60_000_000: "60,000,000,000 ns (1.00 min)",
        59_999_999.999: "59,999,999,999 ns (60.0 s)", 1_500_000: "1,500,000,000 ns (1.50 s)", 1_000: "1,000,000 ns (1.00 ms)",
        999.999: f"999,999 ns (1,000 {US})", 12.345: f"12,345 ns (12.3 {US})", 5: f"5,000 ns (5.00 {US})", 1: f"1,000 ns (1.00 {US})",
        0.999: "999 ns", 0.001: "1 ns",
    },
    (): {
        86_400_000_000: f"86,400,000,000 {US} (1.00 d)", 3_600_000_000: f"3,600,000,000 {US} (1.00 h)",
        60_000_000: f"60,000,000 {US} (1.00 min)", 59_999_999: f"59,999,999 {US} (60.0 s)", 1_500_000: f"1,500,000 {US} (1.50 s)",
        999_999: f"999,999 {US} (1,000 ms)", 12_345: f"12,345 {US} (12.3 ms)", 5_000: f"5,000 {US} (5.00 ms)", 1_000: f"1,000 {US} (1.00 ms)",
        999: f"999 {US}", 1: f"1 {US}",
    },
}


def try_ladders(driver, program, folder):
    """Busy times of threads, and why an event with a fraction is refused in microseconds."""
    for words, ladder in LADDERS.items():
        put_traces(folder, {"ladder.json": [span(1, at, "alpha", 0, length) for at, length in enumerate(ladder)] + [span(1, 0, "half", 0.5, 1)]})
        page = Page(driver, program, [*words, "ladder.json"], folder=folder)
        expect(f"busy times with {words}", busy_times(page), [f"busy {text}" for text in ladder.values()])
        page.expect_silence()
    expect("the hint in microseconds", hint(page), f"Times are whole microseconds.{HINT}")
    expect("why a fraction is refused", reasons(page), ["1 \u00d7 14 NotWhole: its time or length isn't a whole number of microseconds, "
           "or is out of range; first at element 11"])


# Files that are runs of their own


def try_files(driver, program, folder):
    """Files apart say one unit, and so does a page of so many that it has no runs."""
    put_traces(folder, {"one.json": [span(7, 1, "alpha", 0, 100.5), span(7, 1, "text", 0, "5")], "two.json": [span(7, 1, "alpha", 0.25, 0.75)]})
    page = Page(driver, program, ["--nanoseconds", "--apart", "one.json", "two.json"], folder=folder)
    expect("the hint of files apart", hint(page), f"Times are whole nanoseconds.{HINT} "
           "Rows are of all files together; with the column file (--group-by) each file has its own.")
    expect("titles of files apart", page.titles("#names"), ["name", "self, ns", "of busy", "total, ns", "count", "process", "thread"])
    expect("rows of files apart", page.rows("#names"), [["alpha", "101,250", "100.0 %", "101,250", "2", "7", "1"]])
    expect("busy times of files apart", busy_times(page), [f"busy 100,500 ns (101 {US})", "busy 750 ns"])
    expect("why an event of a file was refused", reasons(page),
           ["1 \u00d7 14 NotWhole: its time or length isn't a number, or is out of range; first at element 1"])
    choose(page, "file", "two.json")
    expect("the address of a file", page.fragment(), "#file=2")
    expect("the graph of a file", (lines_of_graphs(page), busy_times(page)), (["1 of process 7 in two.json"], ["busy 750 ns"]))
    graph = Graph(page, 1)
    graph.pointer(0.5, 1).perform()
    expect("what is said of a frame of a file", graph.text(".told"), "alpha\nself 750 ns, total 750 ns, 100.0 % of the thread's busy time")
    page.expect_silence()

    many = {f"{at:02}.json": [span(7, 1, "alpha", 0, 0.5)] for at in range(65)}
    put_traces(folder, many)
    page = Page(driver, program, ["--nanoseconds", "--apart", *many], folder=folder)
    expect("the hint without runs", hint(page), "Times are whole nanoseconds. A click on a column sorts. The address shows the view again.")
    expect("titles without runs", page.titles("#names"), ["name", "self, ns", "total, ns", "count", "process", "thread"])
    expect("rows without runs", page.rows("#names"), [["alpha", "32,500", "32,500", "65", "7", "1"]])
    expect("sums without runs", page.text("#names .status"), f"1 of 1 rows shown; sum of self 32,500 ns (32.5 {US}); sum of count 65")
    page.expect_silence()


def try_nanoseconds(driver, program, folder):
    for view in [try_fractions, try_ladders, try_files]:
        view(driver, program, folder)
