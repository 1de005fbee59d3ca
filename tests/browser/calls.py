"""The callers and callees of a row: what is right around its frames and right under them, each stack's time once for each."""
from details import detailed
from pages import Graph, Keys, Page, expect
from typed import typed_page
from views import LONG, MARKUP, RIGHT, check_narrow, check_odd_elements, click_row, put_traces, span

US = "\u00b5s"
# On the first thread `a` is called by `b`, and `b` by `a` again; on the second one `b` stands outermost; `idle` has no length.
NESTED = [
    span(1, 1, "a", 0, 100), span(1, 1, "b", 10, 50), span(1, 1, "a", 20, 30), span(1, 1, "b", 25, 10), span(1, 1, "c", 40, 5),
    span(1, 1, "c", 70, 20), span(1, 2, "b", 0, 40), span(1, 2, "c", 10, 10), span(1, 2, "idle", 50, 0),
]
OUTERMOST, ITSELF = "nothing: outermost", "itself"
# By thread: each caller or callee with its time and its share of the row's.
A = ("a", "100", "100.0 %", "thread 1", [[OUTERMOST, "100", "100.0 %"], ["b", "30", "30.0 %"]],
     [["b", "50", "50.0 %"], [ITSELF, "45", "45.0 %"], ["c", "25", "25.0 %"]])
B = ("b", "50", "50.0 %", "thread 1", [["a", "50", "100.0 %"]], [["a", "30", "60.0 %"], [ITSELF, "30", "60.0 %"]])
C = ("c", "25", "25.0 %", "thread 1", [["a", "25", "100.0 %"]], [[ITSELF, "25", "100.0 %"]])
B_OF_2 = ("b", "40", "100.0 %", "thread 2", [[OUTERMOST, "40", "100.0 %"]], [[ITSELF, "30", "75.0 %"], ["c", "10", "25.0 %"]])
# Of both threads together.
A_OF_ALL = ("a", "100", "100.0 %", "thread 1", *A[4:])
B_OF_ALL = ("b", "90", "64.3 %", "2 threads", [["a", "50", "55.6 %"], [OUTERMOST, "40", "44.4 %"]],
            [[ITSELF, "60", "66.7 %"], ["a", "30", "33.3 %"], ["c", "10", "11.1 %"]])


def is_open(page):
    return page.run("return document.getElementById('calls').checkVisibility()")


def lists(page):
    return [page.shown_rows(f"#calls-lists > :nth-child({at})") for at in (1, 2)]


def notes(page):
    return page.run("return [...document.querySelectorAll('#calls-notes > p')].map(note => note.innerText)")


def expect_calls(page, what, wanted, told=()):
    name, time, share, threads, callers, callees = wanted
    expect(f"whose calls are shown, {what}", page.text("#calls-of"), f"{name} in stacks for {time} {US}, {share} of the busy time of {threads}")
    expect(f"callers and callees, {what}", lists(page), [callers, callees])
    expect(f"what has to be known of calls, {what}", notes(page), list(told))


def current(page):
    return [row[0] for row in page.run("return [...document.querySelectorAll('#names tr[aria-current=true]')].map(r => [...r.cells].map(c => c.innerText))")]


def choose(page, *cells):
    """Clicks on the first row that has these cells among its own."""
    click_row(page, next(at for at, row in enumerate(page.rows("#names"), 1) if all(cell in row for cell in cells)))


def go_on(page, which, name):
    """Clicks on a caller or a callee."""
    row = next(at for at, (own, *_) in enumerate(lists(page)[which], 1) if own == name)
    page.click(f"#calls-lists > :nth-child({1 + which}) tbody tr:nth-child({row}) button")


def check_calls(page):
    """A row's calls, and from them to the next row's; recursion counts a stack once."""
    expect("whether calls are shown at first", is_open(page), False)
    for total, wanted in [("130", A), ("60", B), ("25", C), ("40", B_OF_2)]:
        name, time, share, *_ = wanted
        choose(page, name, total)
        expect_calls(page, f"of {name} with {total}", wanted)
        expect("the current row", current(page), [name])
        marked = Graph(page, 1 if wanted is B_OF_2 else 0).text(".graph > .status").partition("marked, ")[2].removeprefix("together ")
        expect(f"what {name} with {total} marks", marked, f"{time} {US}, {share} of the thread's busy time")
    choose(page, "a", "130")
    place = page.run("return [scrollY, document.getElementById('calls').getBoundingClientRect().top]")
    for which, name, wanted in [(1, "b", B), (1, "a", A), (1, "c", C), (0, "a", A)]:
        go_on(page, which, name)
        expect_calls(page, f"after a click on {name}", wanted)
        expect("the current row after a click", current(page), [name])
        expect(f"what is marked after a click on {name}", wanted[1] in Graph(page, 0).text(".graph > .status").replace(US, "").split(), True)
        expect("the focus after a click", page.run("return document.activeElement.id"), "calls-title")
    expect("where the page is after clicks in the panel", page.run(
        "return [scrollY, document.getElementById('calls').getBoundingClientRect().top]"), place)
    page.press(Keys.TAB)
    expect("the focus behind the title", page.run("return document.activeElement.id"), "calls-close")
    page.run("arguments[0].focus()", page.element("#calls-lists > :nth-child(2) tbody button"))
    page.press(Keys.ENTER)
    expect_calls(page, "after a key on b", B)
    page.press(Keys.ESCAPE)
    expect("whether calls are shown after Escape", (is_open(page), current(page)), (False, []))
    choose(page, "idle")
    expect("what is said of no length", (lists_shown(page), notes(page)),
           (False, ["No stack has it: its spans have no length, or are of other threads than those that are chosen."]))
    page.click("#calls-close")
    expect("whether calls are shown after they were closed", is_open(page), False)


def lists_shown(page):
    return page.run("return document.getElementById('calls-lists').checkVisibility()")


def check_all_threads(page):
    """A row of several threads has the calls of all of them, or of those that are chosen."""
    choose(page, "a")
    expect_calls(page, "of all threads", A_OF_ALL)
    choose(page, "b")
    expect_calls(page, "of all threads", B_OF_ALL)
    page.choose("thread", "2")
    expect_calls(page, "of a thread that is chosen", B_OF_2)
    page.choose("thread", "all threads")
    expect_calls(page, "of all threads again", B_OF_ALL)


def check_parents(page):
    """Rows by parents share the frames of their label, and it is said."""
    choose(page, "b", "a")
    expect_calls(page, "of a row with a parent", B_OF_ALL, ["2 rows have these frames, since stacks tell no more of a span than name; the times are "
                 "of all these rows together."])


def check_no_labels(page):
    """Rows of threads alone have no frames that stacks could tell."""
    click_row(page, 1)
    expect("marks of rows without labels", Graph(page, 0).text(".graph > .status").split(",")[0], "0 frames marked")
    expect("what is said of rows without labels", (page.text("#calls-of"), lists_shown(page), notes(page)),
           ("", False, ["The table has no column of names or arguments, and stacks have nothing else: which frames a row has can't be told."]))


def check_left_out_rows(page):
    """What an option left out of the table is a caller nevertheless, and can be followed."""
    choose(page, "c")
    go_on(page, 0, "a")
    expect_calls(page, "of what is no row", A_OF_ALL, ["The table has no row of it, since options left it out."])
    expect("the current row of what is none", current(page), [])


def check_ambiguous(page):
    """A name, or a name and an argument, may have one label."""
    choose(page, "Source", "a.h")
    note = "2 rows have these frames, since stacks tell no more of a span than name args.detail; the times are of all these rows together."
    expect_calls(page, "of one label for two rows", ("Source a.h", "50", "83.3 %", "thread 1", [[OUTERMOST, "50", "100.0 %"]],
                 [[ITSELF, "40", "80.0 %"], ["Source b.h", "10", "20.0 %"]]), [note])


def check_told_above(page):
    """What is said beside a frame stands above the panel where that has the room below."""
    choose(page, "a")
    graph = Graph(page, 0)
    page.run("document.body.style.paddingTop = '900px'")
    for _ in range(2):  # The panel goes along until it stands at the window's lower edge.
        page.run("scrollBy(0, arguments[0].getBoundingClientRect().bottom - arguments[1].getBoundingClientRect().top + 5)",
                 graph.canvas, page.element("#calls"))
    graph.pointer(0.1, 3).perform()
    tip, panel = page.run("return ['#thread-0 .tip', '#calls'].map(place => document.querySelector(place).getBoundingClientRect().toJSON())")
    expect("whether what is said stands above the panel", (tip["height"] > 0, tip["bottom"] <= panel["top"]), (True, True))


def try_odd(driver, program, folder):
    """Names stand in the panel as they are, on a phone and in print too."""
    page = typed_page(driver, program, folder)
    choose(page, MARKUP)
    names = page.run("return [...document.querySelectorAll('#calls-lists bdi')].map(name => name.title)")
    expect("odd names of callees", sorted(names), sorted([LONG, "a\\u202eb\\u2028c\\u000a"]))
    go_on(page, 1, page.shown_rows("#calls-lists > :nth-child(2)")[1][0])
    expect("a caller's odd name", lists(page)[0], [[MARKUP, "20", "100.0 %"]])
    choose(page, RIGHT)
    expect("an odd name", page.text("#calls-of bdi"), RIGHT)
    Graph(page, 0)
    check_narrow(page, 11 + 2)  # of spans, and a caller and a callee
    check_odd_elements(page)
    page.expect_silence()


def try_others(driver, program, folder):
    """What stands in no stack is said to; so is a page that has no stacks."""
    page = typed_page(driver, program, folder)
    expect("what is said of other tables", page.text("#unstacked"), "What follows stands in no stack, so it has no callers and callees.")
    put_traces(folder, {f"{at}.json": [span(1, 1, "a", 0, 5)] for at in range(65)})
    page = Page(driver, program, ["--apart", *(f"{at}.json" for at in range(65))], folder=folder)
    page.click("#names tbody td:nth-child(2)")
    expect("calls of a page without stacks", (lists_shown(page), [note[:30] for note in notes(page)]), (False, ["A page of more than 64 files tha"[:30]]))
    expect("whether other tables are said to follow", page.run("return document.getElementById('unstacked').checkVisibility()"), False)
    page.expect_silence()


def try_calls(driver, program, folder):
    put_traces(folder, {"nested.json": NESTED, "unnamed.json": [span(1, 1, "", 0, 9), span(1, 1, "a", 1, 2)], "detailed.json": [detailed(1, "Source", 0, 40, "a.h"), detailed(1, "Source", 10, 10, "b.h"),
               detailed(1, "Source a.h", 50, 10), detailed(1, "Other", 60, 10, "c.h")]})
    for words, check in [
        (["nested.json"], check_calls),
        (["--group-by", "name", "nested.json"], check_all_threads),
        (["--group-by", "name", "nested.json"], check_told_above),
        (["--group-by", "name,parent.name", "nested.json"], check_parents),
        (["--group-by", "process,tid", "nested.json"], check_no_labels),
        (["--group-by", "parent.name", "nested.json"], check_no_labels),
        (["--group-by", "tid", "unnamed.json"], check_no_labels),
        (["--group-by", "name", "--skip", "a", "nested.json"], check_left_out_rows),
        (["--group-by", "name,args.detail", "detailed.json"], check_ambiguous),
    ]:
        page = Page(driver, program, words, folder=folder)
        check(page)
        check_odd_elements(page)
        page.expect_silence()
    try_odd(driver, program, folder)
    try_others(driver, program, folder)
