"""Spans with details, which a table has a column for: rows, labels of frames, and what a row marks."""
from pages import Graph, Keys, Page, expect
from views import BRIEF, FIRST_ROWS, LONG, RIGHT, check_narrow, check_odd_elements, click_row, put_traces, span


def detailed(thread, name, start, length, *detail):
    return span(1, thread, name, start, length) | {"args": {"detail": value for value in detail}}


LEAST, MOST = -(2**63), 2**63 - 1
DETAILED = [
    detailed(1, "Source", 0, 40, "a.h"), detailed(1, "Source", 10, 10, "b.h"), detailed(1, "Source a.h", 50, 10),
    detailed(1, "Odd", 60, 9, None), detailed(1, "Odd", 70, 8, False), detailed(1, "Odd", 80, 7, True), detailed(1, "Odd", 90, 6, LEAST),
    detailed(1, "Odd", 100, 5, MOST), detailed(1, "Odd", 110, 4, {"of": "no kind"}), detailed(1, "Odd", 120, 3, "null"),
    detailed(1, "Odd", 130, 2, ""),
    detailed(2, "Source", 0, 25, "b.h"), detailed(2, "Read", 30, 20, LONG), detailed(2, "Read", 50, 15, RIGHT),
]
# Name, detail, self, share of the busy time of the threads that have it, total and count.
A_ROW = ["Source", "a.h", "30", "31.9 %", "40", "1"]
B_ROW = ["Source", "b.h", "35", "22.7 %", "35", "2"]
LONG_READ = ["Read", BRIEF, "20", "33.3 %", "20", "1"]
RIGHT_READ = ["Read", RIGHT, "15", "25.0 %", "15", "1"]
PLAIN = ["Source a.h", "-", "10", "10.6 %", "10", "1"]
NULL, FALSE, TRUE = [["Odd", *row, "1"] for row in [["null", "9", "9.6 %", "9"], ["false", "8", "8.5 %", "8"], ["true", "7", "7.4 %", "7"]]]
LEAST_ROW, MOST_ROW = ["Odd", str(LEAST), "6", "6.4 %", "6", "1"], ["Odd", str(MOST), "5", "5.3 %", "5", "1"]
ANY = ["Odd", "...", "4", "4.3 %", "4", "1"]
NULL_TEXT, EMPTY_TEXT = ["Odd", "null", "3", "3.2 %", "3", "1"], ["Odd", '""', "2", "2.1 %", "2", "1"]
DETAILS_BY_SELF = [B_ROW, A_ROW, LONG_READ, RIGHT_READ, PLAIN, NULL, FALSE, TRUE, LEAST_ROW, MOST_ROW, ANY, NULL_TEXT, EMPTY_TEXT]
BY_DETAIL = [PLAIN, NULL, FALSE, TRUE, LEAST_ROW, MOST_ROW, EMPTY_TEXT, RIGHT_READ, LONG_READ, A_ROW, B_ROW, NULL_TEXT, ANY]
LABELS = [("Source a.h", 50), ("Odd null", 12), ("Odd false", 8), ("Odd true", 7), (f"Odd {LEAST}", 6), (f"Odd {MOST}", 5), ("Odd ...", 4), ("Odd ", 2)]


def check_details_table(page):
    """A row for each name and detail, in the order of their values, found by words of both."""
    expect("titles", page.titles("#names"), ["name", "args.detail", "self, \u00b5s", "of busy", "total, \u00b5s", "count"])
    expect("rows with details", page.rows("#names"), DETAILS_BY_SELF)
    page.click("#names th:nth-child(2) button")
    expect("rows by detail", page.rows("#names"), BY_DETAIL)
    expect("the address by detail", page.fragment(), "#sort=args.detail")
    page.click("#names th:nth-child(2) button")
    expect("rows by detail turned", page.rows("#names"), BY_DETAIL[::-1])
    page.open(page.fragment())
    expect("rows of the address by detail", page.rows("#names"), BY_DETAIL[::-1])
    page.open()
    for words, rows, threads in [("source .H", [B_ROW, A_ROW, PLAIN], "2 of 2 threads shown"),
                                 ("b.h", [B_ROW], "2 of 2 threads shown"),
                                 ("longlong", [LONG_READ], "1 of 1 threads shown, narrowed from 2"),
                                 ("odd -null -e", [LEAST_ROW, MOST_ROW, ANY, EMPTY_TEXT], "1 of 1 threads shown, narrowed from 2")]:
        page.write(words)
        expect(f"rows with {words!r}", page.rows("#names"), rows)
        expect(f"threads with {words!r}", page.text("#graphs-shown"), threads)
    page.write("")


def check_details_graph(page):
    """Frames have labels, which a row marks wherever it is clicked, and their lines keep name and detail apart."""
    graph = Graph(page, 0)
    labels = [[(name, int(total)) for name, _, _, total in level] for level in graph.boxes()]
    expect("labels", labels, [[("thread 1", 94)], LABELS, [("Source b.h", 10)]])
    for x, level, said in [
        (0.05, 2, "Source\nargs.detail b.h\nself 10 \u00b5s, total 10 \u00b5s, 10.6 %"),
        (0.05, 1, "Source a.h\nself 40 \u00b5s, total 50 \u00b5s, 53.2 %"),  # A name, or a name and a detail: both have this label.
        (0.7, 1, "Odd\nargs.detail false\nself 8 \u00b5s, total 8 \u00b5s, 8.5 %"),
        (0.05, 0, "thread 1\nself 0 \u00b5s, total 94 \u00b5s, 100.0 %"),
    ]:
        graph.pointer(x, level).perform()
        for place in [".told", ".tip"]:
            expect(f"what {place} says of a label", graph.text(place), f"{said} of the thread's busy time")
    other = Graph(page, 1)
    other.pointer(0.5, 1).perform()
    expect("the whole of a long detail", other.text(".told").split("\n")[:2], ["Read", f"args.detail {LONG}"])
    expect("its title", page.run("return arguments[0].title", page.element(f"{other.section} .told .label > span bdi")), LONG)
    for thread, row, place, shown, marked in [
        ("all threads", 1, "td:nth-child(6)", graph, "1 frame marked, 10 \u00b5s, 10.6 %"),
        ("all threads", 2, "td:nth-child(2)", graph, "1 frame marked, 50 \u00b5s, 53.2 %"),
        ("all threads", 3, "button", other, "1 frame marked, 20 \u00b5s, 33.3 %"),
        ("2", 1, "button", other, "1 frame marked, 25 \u00b5s, 41.7 %"),
    ]:
        page.choose("thread", thread)
        click_row(page, row, place)
        expect(f"what row {row} marks", shown.text(".graph > .status"), f"{marked} of the thread's busy time")
        expect(f"the focus after row {row}", page.run("return document.activeElement === arguments[0]", page.element(f"{shown.section} .view")), True)
    page.choose("thread", "all threads")
    page.run("arguments[0].focus()", page.element("#names tbody tr:nth-child(4) button"))
    page.press(Keys.ENTER)
    expect("what a row marks by a key", other.text(".graph > .status"), "1 frame marked, 15 \u00b5s, 25.0 % of the thread's busy time")


def check_details_by_thread(page):
    """With columns of threads a row is one of theirs alone."""
    page.choose("thread", "2")
    expect("rows of a thread", page.rows("#names"), [["Source", "b.h", "25", "41.7 %", "25", "1", "2"],
           [*LONG_READ[:2], "20", "33.3 %", "20", "1", "2"], ["Read", RIGHT, "15", "25.0 %", "15", "1", "2"]])
    page.choose("thread", "all threads")
    expect("the share of a row of a thread", page.rows("#names")[0], ["Source", "a.h", "30", "31.9 %", "40", "1", "1"])
    click_row(page, 2)
    expect("what a row of a thread marks", Graph(page, 1).text(".graph > .status"), "1 frame marked, 25 \u00b5s, 41.7 % of the thread's busy time")


def try_details(driver, program, folder):
    put_traces(folder, {"detailed.json": DETAILED})
    page = Page(driver, program, ["--group-by", "name,args.detail", "detailed.json"], folder=folder)
    for check in [check_details_table, check_details_graph, check_odd_elements]:
        check(page)
    check_narrow(page, FIRST_ROWS + 2)  # of spans, and a caller and a callee
    page.expect_silence()
    page = Page(driver, program, ["--group-by", "tid,name,args.detail", "detailed.json"], folder=folder)
    check_details_by_thread(page)
    page.expect_silence()
    page = Page(driver, program, ["--group-by", "args.detail,name", "detailed.json"], folder=folder)
    expect("rows with details before names", [row[:2] for row in page.rows("#names")], [[row[1], row[0]] for row in DETAILS_BY_SELF])
    expect("labels with details before names", [box[0] for box in Graph(page, 1).boxes()[1]], ["b.h Source", f"{LONG} Read", f"{RIGHT} Read"])
    page.expect_silence()
