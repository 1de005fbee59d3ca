"""Pages whose tables have columns of parents: words find rows by these too, and graphs go by the labels of frames as ever."""
from details import detailed
from pages import Graph, Page, expect
from views import check_odd_elements, click_row, put_traces, span

# On the first thread `Front` holds a `Source` within which another one stands, and `Parse`; on the second one `Back` holds two spans.
HELD = [
    span(1, 1, "Front", 0, 50), detailed(1, "Source", 5, 20, "a.h"), detailed(1, "Source", 10, 6, "b.h"), span(1, 1, "Parse", 30, 10),
    span(1, 2, "Back", 0, 30), detailed(2, "Source", 5, 7, "b.h"), span(1, 2, "Emit", 15, 5),
    span(1, 3, "Emit", 0, 7), span(1, 3, "Mark", 3, 0),
]
# Name, self, share of the busy time of the threads that have it, total, count, and the parent's name.
FRONT = ["Front", "20", "40.0 %", "50", "1", "-"]
BACK = ["Back", "18", "60.0 %", "30", "1", "-"]
IN_FRONT = ["Source", "14", "17.5 %", "20", "1", "Front"]
PARSE = ["Parse", "10", "20.0 %", "10", "1", "Front"]
EMIT = ["Emit", "7", "18.9 %", "7", "1", "-"]
IN_BACK = ["Source", "7", "8.8 %", "7", "1", "Back"]
IN_SOURCE = ["Source", "6", "7.5 %", "6", "1", "Source"]
EMIT_IN_BACK = ["Emit", "5", "13.5 %", "5", "1", "Back"]
MARK = ["Mark", "0", "0.0 %", "0", "1", "Emit"]
BY_SELF = [FRONT, BACK, IN_FRONT, PARSE, EMIT, IN_BACK, IN_SOURCE, EMIT_IN_BACK, MARK]
OF_BUSY = "of the thread's busy time"


def marked(page, place):
    return Graph(page, place).text(".graph > .status")


def expect_found(page, words, rows, threads):
    """The rows with these words, and how many threads are shown."""
    page.write(words)
    expect(f"rows with {words!r}", page.rows("#names"), rows)
    narrowed = "" if threads == 3 else ", narrowed from 3"
    expect(f"threads with {words!r}", page.text("#graphs-shown"), f"{threads} of {threads} threads shown{narrowed}")


def check_words(page):
    """Rows are found by their own names and those of parents, and left out by both; threads and marks go by the labels of frames."""
    expect("titles with parents", page.titles("#names"), ["name", "self, \u00b5s", "of busy", "total, \u00b5s", "count", "parent.name"])
    expect("rows with parents", page.rows("#names"), BY_SELF)
    expect_found(page, "front", [FRONT, IN_FRONT, PARSE], 1)
    expect("marks of a parent's name", marked(page, 0), f"1 frame marked, 50 \u00b5s, 100.0 % {OF_BUSY}")
    expect_found(page, "source", [IN_FRONT, IN_BACK, IN_SOURCE], 2)
    expect("marks of a name", marked(page, 0), f"2 frames marked, together 20 \u00b5s, 40.0 % {OF_BUSY}")
    expect_found(page, "-back", [FRONT, IN_FRONT, PARSE, EMIT, IN_SOURCE, MARK], 3)
    expect_found(page, "source -front -back", [IN_SOURCE], 2)
    expect_found(page, "", BY_SELF, 3)


def check_found_row(page):
    """Words of a row and of its parent are those of no frame, but a click on the row shows its frames, until other words are looked for."""
    expect_found(page, "SOURCE back", [IN_BACK], 0)
    expect("the address with words of a parent", page.fragment(), "#words=SOURCE+back")
    click_row(page, 1)
    expect("threads after a click", page.text("#graphs-shown"), "1 of 1 threads shown, narrowed from 3")
    expect("what the row marks", marked(page, 0), f"2 frames marked, together 20 \u00b5s, 40.0 % {OF_BUSY}")
    expect("the focus after a click", page.run("return document.activeElement.closest('details').id"), "thread-0")
    expect_found(page, "emit back", [EMIT_IN_BACK], 0)
    page.open("#words=source+back")
    expect_found(page, "source back", [IN_BACK], 0)
    page.write("")
    page.choose("thread", "3")
    click_row(page, 1)
    expect("threads after a click on a row that can be of a thread", page.text("#graphs-shown"), "1 of 1 threads shown, narrowed from 3")
    expect("what it marks there", marked(page, 2), f"0 frames marked, together 0 \u00b5s, 0.0 % {OF_BUSY}")
    page.choose("thread", "all threads")


def check_by_thread(page):
    """With columns of threads a click leads to the row's own one, also if it has no frame there, and to each of several rows'."""
    for words, row, found in [("source back", ["Source", "7", "23.3 %", "7", "1", "2", "Back"], f"1 frame marked, 7 \u00b5s, 23.3 % {OF_BUSY}"),
                              ("mark", ["Mark", "0", "0.0 %", "0", "1", "3", "Emit"], f"0 frames marked, together 0 \u00b5s, 0.0 % {OF_BUSY}")]:
        expect_found(page, words, [row], 0)
        click_row(page, 1)
        expect(f"threads after a click with {words!r}", page.text("#graphs-shown"), "1 of 1 threads shown, narrowed from 3")
        expect(f"what is marked with {words!r}", marked(page, int(row[5]) - 1), found)
    page.write("so ck")
    expect("rows of two threads", [row[5:] for row in page.rows("#names")], [["2", "Back"]])
    page.write("")
    page.choose("thread", "2")
    page.write("so -ck")
    expect("rows of a thread without a parent's name", page.rows("#names"), [])
    page.write("ba")
    expect("rows of a thread with a parent's name", [[row[0], row[6]] for row in page.rows("#names")],
           [["Back", "-"], ["Source", "Back"], ["Emit", "Back"]])


def check_arguments(page):
    """Arguments of parents are found as names are, and no part of a label."""
    rows = {"of a parent": ["Source", "b.h", "6", "7.5 %", "6", "1", "a.h"], "of its own": ["Source", "a.h", "14", "28.0 %", "20", "1", "-"]}
    expect_found(page, "a.h", [rows["of its own"], rows["of a parent"]], 1)
    expect("marks of an argument", marked(page, 0), f"1 frame marked, 20 \u00b5s, 40.0 % {OF_BUSY}")
    expect_found(page, "a.h b.h", [rows["of a parent"]], 0)
    click_row(page, 1)
    expect("what a row with a parent's argument marks", marked(page, 0), f"1 frame marked, 6 \u00b5s, 12.0 % {OF_BUSY}")
    expect("the labels", [[box[0] for box in level] for level in Graph(page, 0).boxes()[1:]], [["Front"], ["Source a.h", "Parse"], ["Source b.h"]])
    page.write("")


def check_parents_alone(page):
    """Rows that say nothing of their own spans are found by their parents', and lead to the busiest thread."""
    expect("rows of parents alone", page.rows("#names"), [
        ["-", "45", "51.7 %", "87", "3"], ["Front", "24", "27.6 %", "30", "2"], ["Back", "12", "13.8 %", "12", "2"],
        ["Source", "6", "6.9 %", "6", "1"], ["Emit", "0", "0.0 %", "0", "1"]])
    expect_found(page, "emit", [["Emit", "0", "0.0 %", "0", "1"]], 2)
    click_row(page, 1)
    expect("threads after a click on a parent", page.text("#graphs-shown"), "3 of 3 threads shown")
    expect("the focus after a click on a parent", page.run("return document.activeElement.closest('details').id"), "thread-0")


def try_parent_columns(driver, program, folder):
    put_traces(folder, {"held.json": HELD})
    for columns, checks in [("name,parent.name", [check_words, check_found_row]), ("tid,name,parent.name", [check_by_thread]),
                            ("name,args.detail,parent.args.detail", [check_arguments]), ("parent.name", [check_parents_alone])]:
        page = Page(driver, program, ["--group-by", columns, "held.json"], folder=folder)
        for check in checks:
            check(page)
        check_odd_elements(page)
        page.expect_silence()
