"""The head of a page and its tables: counts and warnings, rows, their order and sums, and what they are narrowed to."""
from pages import Keys, expect, fail
from typed import ALPHA, ASIDE, BETA, BY_SELF, EMPTY, FAR_ROW, GAMMA, LONG_ROW, MARKED, NEAR, RIGHT_ROW, TURNED_ROW, typed_page, typed_path
from views import others

BY_SHARE = [FAR_ROW, ALPHA, MARKED, BETA, GAMMA, LONG_ROW, TURNED_ROW, EMPTY, RIGHT_ROW, ASIDE, NEAR]
BY_NAME = [EMPTY, RIGHT_ROW, MARKED, LONG_ROW, ALPHA, ASIDE, TURNED_ROW, BETA, FAR_ROW, GAMMA, NEAR]


def check_head(page, path):
    expect("counts", page.text("#counts").split(),
           f"file {path} 24 events 3 refused 1 skipped 0 queries 2 processes 4 threads".split())
    expect("names of one file to open", page.run("return document.querySelector('#files').checkVisibility()"), False)
    warning = page.text("#warnings")
    for part in ["Times on their threads can be wrong", "2 \u00d7 11 NotObject: the element isn't an object; first at element 25 of ",
                 "1 \u00d7 21 NoOpenSpan: it ends a span where none is open; first at element 26 of ", "still open: 1."]:
        if part not in warning:
            fail(f"{part!r} is not in the warnings {warning!r}")


def check_table(page):
    expect("rows by self time", page.rows("#names"), BY_SELF)
    whole = "11 of 11 rows shown; sum of self 18,014,398,509,482,182 \u00b5s (208,500 d); sum of count 14"
    expect("sums", page.text("#names .status"), whole)
    page.click("#names th:nth-child(5) button")
    expect("the most frequent", {row[0] for row in page.rows("#names")[:3]}, {"beta", "gamma", "far"})
    expect("order that is said", page.run("return document.querySelector('#names th:nth-child(5)').ariaSort"), "descending")
    page.click("#names th:nth-child(3) button")
    expect("rows by share", [row[2] for row in page.rows("#names")], [row[2] for row in BY_SHARE])
    page.click("#names th:nth-child(1) button")
    expect("rows by name", page.rows("#names"), BY_NAME)
    page.press(Keys.ENTER)
    expect("rows by name turned by a key", page.rows("#names"), BY_NAME[::-1])
    expect("order that is said of names", page.run("return document.querySelector('#names th:nth-child(1)').ariaSort"), "descending")
    page.click("#names th:nth-child(2) button")
    expect("rows by self time again", page.rows("#names"), BY_SELF)


def check_narrowing(page):
    """By words, by words to leave out, and by process and thread."""
    cases = [
        ("LPHA", "all processes", "all threads", [ALPHA], "45 \u00b5s", 1),
        ("a -ga -near", "all processes", "all threads", [FAR_ROW, ALPHA, BETA, MARKED, TURNED_ROW, ASIDE],
         "18,014,398,509,482,121 \u00b5s (208,500 d)", 8),
        ("", "app (7)", "all threads", [ALPHA, BETA, GAMMA, MARKED, LONG_ROW, TURNED_ROW, ASIDE, EMPTY, RIGHT_ROW],
         "200 \u00b5s", 11),
        ("", "app (7)", "main (1)", [ALPHA, BETA, GAMMA, ASIDE], "120 \u00b5s", 6),
        ("zz", "8", "all threads", [], "0 \u00b5s", 0),
    ]
    for words, process, thread, rows, self_time, count in cases:
        page.choose("process", process)
        page.choose("thread", thread)
        page.write(words)
        expect(f"rows of {words!r}, {process} and {thread}", page.rows("#names"), rows)
        said = f"{len(rows)} of {len(rows)} rows shown, narrowed from 11; sum of self {self_time}; sum of count {count}"
        expect(f"what is said of {words!r}, {process} and {thread}", page.text("#names .status"), said)
    page.write("")
    page.choose("process", "all processes")
    expect("rows that are narrowed no more", page.rows("#names"), BY_SELF)

def check_other_tables(page):
    expect("the other tables", others(page), {
        "Async spans (1)": [["load", "30", "1", "0", "0", "net<", '""', "5"]],
        "Flows (1)": [["hop", "5", "1", "0", '""', "x (process 7)"]],
        "Counters (1)": [["heap", "used", "2", "-9,007,199,254,740,991", "12", "12", "app (7)"]],
        "Instants (1)": [["paint", "1", "app (7)", "main (1)", "process"]],
    })


def try_rows(driver, program, folder):
    page = typed_page(driver, program, folder)
    check_head(page, typed_path(folder))
    for check in [check_table, check_narrowing, check_other_tables]:
        check(page)
    page.expect_silence()
