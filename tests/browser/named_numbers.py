"""Pages whose tables have a list of numbers of their own: what is shown of these, in which order, and what such a page does without."""
from pages import Graph, Page, expect, fail
from typed import BY_SELF, TYPED
from views import FIRST_ROWS, check_narrow, check_odd_elements, order_of, put_traces, span

US = "\u00b5s"
# On the first thread an `f` holds another one, and that one a `g`; on the second one `h` stands before some `g`.
RECURSIVE = [span(1, 1, "f", 0, 10), span(1, 1, "f", 2, 5), span(1, 1, "g", 3, 2), span(1, 1, "f", 20, 4)]
OTHERS = [span(1, 2, "h", 0, 13), *(span(1, 2, "g", start, 1) for start in (30, 32, 34, 36))]
ROWS = {
    "f": {"self": 12, "total": 19, "outer": 14, "longest": 10, "count": 3},
    "g": {"self": 6, "total": 6, "outer": 6, "longest": 2, "count": 5},
    "h": {"self": 13, "total": 13, "outer": 13, "longest": 13, "count": 1},
}
# Of the busy times 14 and 17 of the threads.
SHARES = {"f": "85.7 %", "g": "19.4 %", "h": "76.5 %"}
# By which of these rows lead where the greatest of a number does.
ORDERS = {"self": "hfg", "total": "fhg", "outer": "fhg", "longest": "hfg", "count": "gfh"}
ALL = ["self", "total", "outer", "longest", "count"]
USUAL = ["self", "total", "count"]
# Lists as they are named, and as they are shown: the one that JSON Lines have by themselves as if none was named.
LISTS = [(ALL, ALL), (ALL[::-1], ALL[::-1]), (["longest", "count"], ["longest", "count"]), (["count", "self"], ["count", "self"]),
         (USUAL, USUAL), (USUAL[::-1], USUAL), ([], USUAL), *(([name], [name]) for name in ALL)]


def title_of(name, unit=US):
    return name if name == "count" else f"{name}, {unit}"


def titles_of(shown, unit=US, has_runs=True):
    """The titles of numbers: with self time goes its share."""
    return [title for name in shown for title in [title_of(name, unit), *(["of busy"] if name == "self" and has_runs else [])]]


def row_of(name, shown):
    return [name, *(text for number in shown for text in [str(ROWS[name][number]), *([SHARES[name]] if number == "self" else [])])]


def rows_by(number, shown, names="fgh"):
    return [row_of(name, shown) for name in ORDERS[number] if name in names]


def told(shown, names="fgh"):
    """What is told of rows together: the sum of a number, but the greatest of the longest, and of times that lie within others nothing."""
    texts = {"self": f"sum of self {sum(ROWS[name]['self'] for name in names)} {US}",
             "longest": f"longest {max(ROWS[name]['longest'] for name in names)} {US}",
             "count": f"sum of count {sum(ROWS[name]['count'] for name in names)}"}
    narrowed = "" if len(names) == len(ROWS) else f", narrowed from {len(ROWS)}"
    return "; ".join([f"{len(names)} of {len(names)} rows shown{narrowed}", *(texts[number] for number in shown if number in texts)])


def check_table(page, shown):
    """The numbers as they are shown, the first of which rows go by; there are bars where there is self time."""
    expect(f"titles of {shown}", page.titles("#names"), ["name", *titles_of(shown)])
    expect(f"rows of {shown}", page.rows("#names"), rows_by(shown[0], shown))
    expect(f"the order of {shown}", order_of(page), [title_of(shown[0]), "descending"])
    expect(f"what is told of {shown}", page.text("#names .status"), told(shown))
    bars = page.run("return [...document.querySelectorAll('#names .barred')].map(cell => cell.style.getPropertyValue('--bar'))")
    widths = [round(100 * ROWS[name]["self"] / 13, 3) for name in ORDERS[shown[0]]] if "self" in shown else []
    expect(f"bars of {shown}", [round(float(bar.removesuffix("%")), 3) for bar in bars], widths)


def check_sorting(page, shown):
    """A click on each number sorts by it, and the address has it; what the table lacks is no order."""
    for number in [*shown[1:], shown[0]]:
        if len(shown) > 1:
            page.click(f"#names th:nth-child({2 + titles_of(shown).index(title_of(number))}) button")
        expect(f"rows of {shown} by {number}", page.rows("#names"), rows_by(number, shown))
        expect(f"the address of {shown} by {number}", page.fragment(), "" if number == shown[0] else f"#sort=-{number}")
    for number in ALL:
        page.run("location.hash = arguments[0]", f"sort={number}")
        page.wait()
        wanted = [title_of(number), "ascending"] if number in shown else [title_of(shown[0]), "descending"]
        expect(f"the order of {shown} by an address of {number}", order_of(page), wanted)
    page.open()


def check_narrowing(page, shown):
    """Words find names, and no numbers."""
    for words, names in [("g", "g"), ("-g", "fh"), ("13", "")]:
        page.write(words)
        expect(f"rows of {shown} with {words!r}", page.rows("#names"), rows_by(shown[0], shown, names))
        if names:
            expect(f"what is told of {shown} with {words!r}", page.text("#names .status"), told(shown, names))
    page.write("")


def check_frames(page, shown):
    """A row leads to its frames, whose times are those of the graph."""
    page.click(f"#names tbody tr:nth-child({1 + ORDERS[shown[0]].index('f')}) button")
    graph = Graph(page, 0)
    expect(f"what a row of {shown} marks", graph.text(".graph > .status"), f"2 frames marked, together 14 {US}, 100.0 % of the thread's busy time")
    page.run("arguments[0].open = true", page.element(f"{graph.section} .under"))
    expect(f"titles under a thread of {shown}", page.titles(f"{graph.section} .under"), ["name", f"total, {US}", f"self, {US}"])


def check_texts(page, shown):
    """Nothing is shown that is no number, in texts or in what is drawn."""
    texts = page.run("return [document.body.innerText, ...[...document.querySelectorAll('[style]')].map(one => one.getAttribute('style'))]")
    if any(word in text for text in texts for word in ["undefined", "NaN"]):
        fail(f"the page of {shown} shows what is no number")


def try_lists(driver, program, folder):
    put_traces(folder, {"recursive.json": RECURSIVE + OTHERS})
    for named, shown in LISTS:
        words = ["--numbers", ",".join(named)] if named else []
        page = Page(driver, program, ["--group-by", "name", *words, "recursive.json"], folder=folder)
        for check in [check_table, check_sorting, check_narrowing, check_frames, check_texts]:
            check(page, shown)
        check_odd_elements(page)
        page.expect_silence()


# Times that no double holds, beside everything else that a trace can have


def try_greatest(driver, program, folder):
    """All numbers of the typed trace, which fit into any width."""
    put_traces(folder, {"typed.json": TYPED})
    page = Page(driver, program, ["--numbers", ",".join(ALL), "typed.json"], folder=folder)
    far = ["far", "18,014,398,509,481,981", "100.0 %", *2 * ["18,014,398,509,481,982"], "9,007,199,254,740,991", "2", "8", "1"]
    expect("a row of great numbers", page.rows("#names")[0], far)
    expect("what is told of great numbers", page.text("#names .status"), f"11 of 11 rows shown; sum of self 18,014,398,509,482,182 {US} (208,500 d)"
           f"; longest 9,007,199,254,740,991 {US} (104,250 d); sum of count 14")
    Graph(page, 0)
    check_narrow(page, len(BY_SELF))
    page.expect_silence()
    page = Page(driver, program, ["--numbers", "longest,outer,total", "typed.json"], folder=folder)
    Graph(page, 0)
    check_narrow(page, FIRST_ROWS)
    page.expect_silence()


# Files that are runs of their own

SHORT = [span(1, 1, "f", 0, 6), span(1, 1, "f", 1, 2)]
LIST = ["longest", "total", "outer", "self", "count"]
LONG_F, SHORT_F = ["10", "19", "14", "12", "85.7 %", "3"], ["6", "8", "6", "6", "100.0 %", "2"]
G = ["2", "2", "2", "2", "14.3 %", "1"]


def try_files(driver, program, folder):
    """A row of several files has the longest of all of them; with the column file each file has its own."""
    put_traces(folder, {"long.json": RECURSIVE, "short.json": SHORT})
    words = ["--apart", "--numbers", ",".join(LIST)]
    page = Page(driver, program, [*words, "--group-by", "name", "long.json", "short.json"], folder=folder)
    expect("rows of two files", page.rows("#names"), [["f", "10", "27", "20", "18", "90.0 %", "5"], ["g", *G]])
    expect("what is told of two files", page.text("#names .status"), f"2 of 2 rows shown; longest 10 {US}; sum of self 20 {US}; sum of count 6")
    page.expect_silence()
    page = Page(driver, program, [*words, "--group-by", "name,file", "long.json", "short.json"], folder=folder)
    expect("titles with files", page.titles("#names"), ["name", *titles_of(LIST), "file"])
    expect("rows with files", page.rows("#names"), [["f", *LONG_F, "long.json"], ["f", *SHORT_F, "short.json"], ["g", *G, "long.json"]])
    page.write("short")
    said = f"1 of 1 rows shown, narrowed from 3; longest 6 {US}; sum of self 6 {US}; sum of count 2"
    expect("what is told of a file", page.text("#names .status"), said)
    page.expect_silence()

    many = {f"{at}.json": [span(1, 1, "f", 0, 9 if at == 40 else 5)] for at in range(65)}
    put_traces(folder, many)
    page = Page(driver, program, ["--apart", "--group-by", "name", "--numbers", "longest,self", *many], folder=folder)
    expect("titles without runs", page.titles("#names"), ["name", *titles_of(["longest", "self"], has_runs=False)])
    expect("rows without runs", page.rows("#names"), [["f", "9", "329"]])
    expect("what is told without runs", page.text("#names .status"), f"1 of 1 rows shown; longest 9 {US}; sum of self 329 {US}")
    check_texts(page, "files without runs")
    page.expect_silence()


def try_unit(driver, program, folder):
    """Times have the unit of the run, and the count has none."""
    put_traces(folder, {"fractions.json": [span(1, 1, "f", 0, 1.5), span(1, 1, "f", 0.25, 0.5)]})
    page = Page(driver, program, ["--nanoseconds", "--group-by", "name", "--numbers", ",".join(ALL), "fractions.json"], folder=folder)
    expect("titles in nanoseconds", page.titles("#names"), ["name", *titles_of(ALL, "ns")])
    expect("a row in nanoseconds", page.rows("#names"), [["f", "1,500", "100.0 %", "2,000", "1,500", "1,500", "2"]])
    expect("what is told in nanoseconds", page.text("#names .status"),
           f"1 of 1 rows shown; sum of self 1,500 ns (1.50 {US}); longest 1,500 ns (1.50 {US}); sum of count 2")
    page.expect_silence()


def try_no_rows(driver, program, folder):
    """A table without rows has its numbers nevertheless."""
    put_traces(folder, {"none.json": []})
    page = Page(driver, program, ["--numbers", ",".join(ALL), "none.json"], folder=folder)
    expect("titles without rows", page.titles("#names"), ["name", *titles_of(ALL), "process", "thread"])
    expect("what is told without rows", page.text("#names .status"), f"0 of 0 rows shown; sum of self 0 {US}; longest 0 {US}; sum of count 0")
    check_texts(page, "no rows")
    page.expect_silence()


def try_named_numbers(driver, program, folder):
    for view in [try_lists, try_greatest, try_files, try_unit, try_no_rows]:
        view(driver, program, folder)
