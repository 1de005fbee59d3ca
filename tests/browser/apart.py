"""Views of pages whose files are runs of their own, and of the files in the head of any page."""
import json
import os

from page_texts import data_of, page_text
from pages import Graph, Keys, MadePage, Page, expect
from views import BRIEF, LONG, RIGHT, TURNED, TURNED_SHOWN
from views import check_narrow, check_odd_elements, click_row, named, order_of, others, put_traces, ready_of, span, time_of

# Marks that keep the direction of a name in a choice to itself.
ISOLATING = str.maketrans("", "", "\u2068\u2069")


def options(page, choice):
    """What can be chosen, by what is read of it."""
    seen = page.run("return [...document.getElementById(arguments[0]).options].map(option => option.text)", choice)
    return [text.translate(ISOLATING) for text in seen]


def choose(page, choice, text):
    page.run("""
        const [choice, at] = [document.getElementById(arguments[0]), arguments[1]];
        choice.selectedIndex = at;
        choice.dispatchEvent(new Event("change", { bubbles: true }));
    """, choice, options(page, choice).index(text))


def chosen(page):
    """The words, and what is chosen of files, processes and threads."""
    script = "return [words.value, ...['file', 'process', 'thread'].map(id => document.getElementById(id).selectedOptions[0].text)]"
    return [text.translate(ISOLATING) for text in page.run(script)]


def kept(page):
    """What the page keeps of an address as soon as something changes."""
    page.run("words.dispatchEvent(new Event('input', { bubbles: true }))")
    return page.fragment()


def lines_of_graphs(page):
    """What the lines of the graphs say behind the busy time."""
    lines = page.run("return [...document.querySelectorAll('#graphs > details > summary')].map(line => line.innerText)")
    return [" ".join(line.split()).partition("thread ")[2] for line in lines]


def names_of_files(page):
    return page.run("return [...document.querySelectorAll('#files li')].map(item => item.innerText)")


# Two files with the same process and other threads, and one between them that is no trace


def more_of(process, length):
    """What has no span: with the process's number, and the same keys in each file."""
    return [
        {"ph": "b", "pid": process, "name": "load", "cat": "net", "id": 5, "ts": 1},
        {"ph": "e", "pid": process, "name": "load", "cat": "net", "id": 5, "ts": 1 + length},
        {"ph": "s", "pid": process, "name": "hop", "id2": {"local": "x"}, "ts": 4},
        {"ph": "f", "pid": process, "name": "hop", "id2": {"local": "x"}, "ts": 4 + length},
        {"ph": "C", "pid": process, "name": "heap", "ts": 1, "args": {"used": length}},
        {"ph": "i", "pid": process, "tid": 1, "name": "paint", "ts": 3, "s": "p"},
    ]


THREADS = {
    "one.json": [
        named("process_name", 7, 1, "app"), named("thread_name", 7, 1, "main"),
        span(7, 1, "alpha", 0, 100), span(7, 1, "beta", 10, 30), span(7, 2, "aside", 0, 50), 5, *more_of(7, 30),
    ],
    "cut.json": '[{"ph":"B"',
    "two.json": [
        named("process_name", 7, 3, "tool"), named("thread_name", 7, 3, "worker"),
        span(7, 3, "gamma", 0, 200), span(7, 3, "beta", 10, 20), span(8, 1, "alpha", 0, 40), *more_of(7, 45),
    ],
}
# Name, self, share of the thread's busy time, total, count, process and thread.
GAMMA = ["gamma", "180", "90.0 %", "200", "1", "tool (7)", "worker (3)"]
ALPHA = ["alpha", "70", "70.0 %", "100", "1", "app (7)", "main (1)"]
ASIDE = ["aside", "50", "100.0 %", "50", "1", "app (7)", "2"]
OTHER_ALPHA = ["alpha", "40", "100.0 %", "40", "1", "8", "1"]
BETA = ["beta", "30", "30.0 %", "30", "1", "app (7)", "main (1)"]
OTHER_BETA = ["beta", "20", "10.0 %", "20", "1", "tool (7)", "worker (3)"]
BY_SELF = [GAMMA, ALPHA, ASIDE, OTHER_ALPHA, BETA, OTHER_BETA]
LINES = ["worker (3) of process tool (7) in two.json", "main (1) of process app (7) in one.json",
         "2 of process app (7) in one.json", "1 of process 8 in two.json"]
FIRST_OTHERS = {
    "Async spans (2)": [["load", "30", "1", "0", "0", "net", '""', "5", "one.json"]],
    "Flows (2)": [["hop", "30", "1", "0", '""', "x (process 7)", "one.json"]],
    "Counters (2)": [["heap", "used", "1", "30", "30", "30", "app (7)", "one.json"]],
    "Instants (2)": [["paint", "1", "app (7)", "main (1)", "process", "one.json"]],
}
SECOND_OTHERS = {
    "Async spans (2)": [["load", "45", "1", "0", "0", "net", '""', "5", "two.json"]],
    "Flows (2)": [["hop", "45", "1", "0", '""', "x (process 7)", "two.json"]],
    "Counters (2)": [["heap", "used", "1", "45", "45", "45", "tool (7)", "two.json"]],
    "Instants (2)": [["paint", "1", "tool (7)", "1", "process", "two.json"]],
}


def check_head(page):
    """The counts of all files, and their names behind a key, with what became of the one that is no trace."""
    expect("counts of files apart", page.text("#counts").split(),
           "3 files 22 events 1 refused 0 skipped 0 queries 3 processes 5 threads".split())
    shown = "return [files.open, files.querySelector('ul').checkVisibility({ contentVisibilityAuto: true })]"
    page.run("arguments[0].focus()", page.element("#files summary"))
    expect("whether names stand open", page.run(shown)[0], False)
    page.press(Keys.ENTER)
    expect("whether names stand open after a key", page.run(shown), [True, True])
    expect("names of files", names_of_files(page), ["one.json", "cut.json: 1 NotJson", "two.json"])
    below = "return files.getBoundingClientRect().top >= counts.getBoundingClientRect().bottom"
    expect("whether names stand below the counts", page.run(below), True)
    warnings = page.run("return [...document.querySelectorAll('#warnings > *')].map(one => one.innerText.split(/\\n+/))")
    expect("warnings", warnings, [
        ["Files that are no traces as a whole, of which nothing is here: 1.", "cut.json: 1 NotJson"],
        ["Events were refused. Times on their threads can be wrong: where a begin is refused, its end closes another span. "
         "Elements are counted from 0.", "1 \u00d7 11 NotObject: the element isn't an object; first at element 5 of one.json"],
    ])
    page.press(Keys.ENTER)
    expect("whether names are closed after a key", page.run(shown)[0], False)


def check_all_files(page):
    """What two files have of one process stands apart wherever it isn't summed."""
    expect("rows of all files", page.rows("#names"), BY_SELF)
    expect("what rows are of", "Rows are of all files together" in page.text("#names-title + .hint"), True)
    expect("files to choose", options(page, "file"), ["all files", "one.json", "cut.json", "two.json"])
    expect("processes to choose", options(page, "process"), ["all processes", "app (7) in one.json", "tool (7) in two.json", "8 in two.json"])
    expect("threads to choose", options(page, "thread"), ["all threads", "worker (3) in two.json", "main (1) in one.json", "2 in one.json",
           "1 in two.json", "1 in two.json"])
    expect("lines of graphs", lines_of_graphs(page), LINES)
    expect("threads that are counted", page.text("#graphs-shown"), "4 of 4 threads shown; in 1 more no span covers a microsecond")
    both = {title: [*FIRST_OTHERS[title], *SECOND_OTHERS[title]] for title in FIRST_OTHERS}
    by_first_number = {title: sorted(rows, key=lambda row: -int(row[1]) if row[1].isdigit() else 0) for title, rows in both.items()}
    expect("the other tables", others(page), by_first_number)
    page.click("#others > details:nth-child(1) th:nth-child(9) button")
    expect("async spans by file", [row[8] for row in page.rows("#others > details:nth-child(1)")], ["one.json", "two.json"])
    page.press(Keys.ENTER)
    expect("async spans by file turned", [row[8] for row in page.rows("#others > details:nth-child(1)")], ["two.json", "one.json"])
    page.click("#others > details:nth-child(1) th:nth-child(2) button")
    expect("what a graph is called", page.run("return arguments[0].ariaLabel", page.element("#thread-3 .view")),
           "Flame graph of thread worker (3) in two.json")


def check_narrowing(page):
    """By file and by process, from the choices to the address and back; the choices follow."""
    all_processes, all_threads = "all processes", "all threads"
    first = [LINES[1], LINES[2]]
    for choice, text, rows, lines, more, fragment, now in [
        ("file", "one.json", [ALPHA, ASIDE, BETA], first, FIRST_OTHERS, "#file=1", ["", "one.json", all_processes, all_threads]),
        ("process", "app (7) in one.json", [ALPHA, ASIDE, BETA], first, FIRST_OTHERS, "#file=1&process=1.7",
         ["", "one.json", "app (7) in one.json", all_threads]),
        ("thread", "2 in one.json", [ASIDE], [LINES[2]], FIRST_OTHERS | {"Instants (2)": []}, "#file=1&process=1.7&thread=1.7.2",
         ["", "one.json", "app (7) in one.json", "2 in one.json"]),
        ("file", "cut.json", [], [], dict.fromkeys(FIRST_OTHERS, []), "#file=2", ["", "cut.json", all_processes, all_threads]),
        ("file", "all files", BY_SELF, LINES, None, "", ["", "all files", all_processes, all_threads]),
        ("process", "tool (7) in two.json", [GAMMA, OTHER_BETA], [LINES[0]], SECOND_OTHERS, "#process=3.7",
         ["", "all files", "tool (7) in two.json", all_threads]),
        ("process", "8 in two.json", [OTHER_ALPHA], [LINES[3]], SECOND_OTHERS | {"Counters (2)": [], "Instants (2)": []}, "#process=3.8",
         ["", "all files", "8 in two.json", all_threads]),
        ("process", all_processes, BY_SELF, LINES, None, "", ["", "all files", all_processes, all_threads]),
        ("thread", "main (1) in one.json", [ALPHA, BETA], [LINES[1]], FIRST_OTHERS, "#thread=1.7.1",
         ["", "all files", all_processes, "main (1) in one.json"]),
    ]:
        choose(page, choice, text)
        for way in ["chosen", "opened"]:
            if way == "opened":
                page.open(fragment)
            expect(f"the address of {text!r}, {way}", page.fragment(), fragment)
            expect(f"rows of {text!r}, {way}", page.rows("#names"), rows)
            expect(f"graphs of {text!r}, {way}", lines_of_graphs(page), lines)
            expect(f"choices of {text!r}, {way}", chosen(page), now)
            if more is not None:
                expect(f"the other tables of {text!r}, {way}", others(page), more)
    page.open("#file=3")
    expect("processes of a file", options(page, "process"), [all_processes, "tool (7) in two.json", "8 in two.json"])
    expect("threads of a file", options(page, "thread"), [all_threads, "worker (3) in two.json", "1 in two.json", "1 in two.json"])
    page.write("beta")
    expect("rows of a file and a word", page.rows("#names"), [OTHER_BETA])
    expect("the address of a file and a word", page.fragment(), "#words=beta&file=3")
    page.write("")


def check_zooms(page):
    """A zoom's place in the address has its file, so that the same numbers in two files are two places."""
    page.open("#zoom=1.7.1.2&zoom=3.8.1.1")
    expect("zooms of two files", [[[name for name, *_ in level] for level in Graph(page, place).boxes()] for place in (0, 4)],
           [[["thread main (1)"], ["alpha"], ["beta"]], [["thread 1"], ["alpha"]]])
    expect("the address of two zooms", sorted(page.fragment()[1:].split("&")), ["zoom=1.7.1.2", "zoom=3.8.1.1"])
    Graph(page, 0).click(".steps button:nth-child(1)")
    expect("the address of one zoom", page.fragment(), "#zoom=3.8.1.1")


# The names of processes and threads, and then labels: a stack begins with `-` where it has no such name.
WHOLE = [
    [("all files", 0, 390)],
    [("tool", 0, 200), ("app", 200, 150), ("-", 350, 40)],
    [("worker", 0, 200), ("main", 200, 100), ("-", 300, 50), ("-", 350, 40)],
    [("gamma", 0, 200), ("alpha", 200, 100), ("aside", 300, 50), ("alpha", 350, 40)],
    [("beta", 0, 20), ("beta", 200, 30)],
]


def check_whole(page):
    """The graph of all files stands open above those of threads, whatever is narrowed to; words mark its frames, and the address has its
    zoom."""
    expect("whether the graph of all files stands open", page.element("#thread-whole").get_property("open"), True)
    graph = Graph(page, "whole")
    graph.expect("the graph of all files", 390, WHOLE)
    page.write("beta")
    expect("marks in the graph of all files", graph.text(".graph > .status"), "2 frames marked, together 50 \u00b5s, 12.8 % of all busy time")
    page.write("")
    page.open("#zoom=all.1&zoom=all.7")
    expect("the address of a zoom of all files", kept(page), "#zoom=all.7")
    page.open("#file=1")
    expect("the graph of all files of one", Graph(page, "whole").boxes()[1][0][0], "tool")
    page.open("#")


def check_odd_fragments(page):
    """What the page doesn't have of an address is left out, and so is what is of another file than the one that is narrowed to."""
    everything = ["", "all files", "all processes", "all threads"]
    nothing = ["#", "#file=0", "#file=4", "#file=__proto__", "#file=one.json", "#file=", "#file=1.0", "#file=01", "#process=7&thread=7.1",
               "#process=2.7&thread=9.7.1", "#zoom=7.1.2&zoom=4.7.1.2&zoom=2.7.1.2&zoom=1.7.1"]
    for fragment, now, left in [
        *((fragment, everything, "") for fragment in nothing),
        ("#file=1&process=3.7&thread=3.7.3", ["", "one.json", "all processes", "all threads"], "#file=1"),
        ("#process=3.7&thread=3.8.1", ["", "all files", "tool (7) in two.json", "all threads"], "#process=3.7"),
        ("#file=3&file=1", ["", "two.json", "all processes", "all threads"], "#file=3"),
    ]:
        page.open(fragment)
        expect(f"choices of {fragment!r}", chosen(page), now)
        expect(f"what is left of {fragment!r}", kept(page), left)
        page.expect_silence()


def check_keys(page):
    """From word to file, process and thread by the tabulator, and narrowing by the arrow keys."""
    page.open()
    page.click("#words")
    focus = "return document.activeElement.id"
    labels = "return document.activeElement.labels[0].firstChild.data.trim()"
    seen = []
    for _ in range(3):
        page.press(Keys.TAB)
        seen.append((page.run(focus), page.run(labels)))
    expect("what the tabulator leads to", seen, [("file", "File"), ("process", "Process"), ("thread", "Thread")])
    page.run("arguments[0].focus()", page.element("#file"))
    page.press(Keys.DOWN)
    expect("choices after a key", chosen(page)[1], "one.json")
    expect("the focus after a key", page.run(focus), "file")
    page.press(Keys.DOWN, Keys.DOWN)
    expect("rows after three keys", page.rows("#names"), [GAMMA, OTHER_ALPHA, OTHER_BETA])
    page.press(Keys.HOME)
    expect("rows after the key that leads to all files", page.rows("#names"), BY_SELF)


def try_threads(driver, program, folder):
    put_traces(folder, THREADS)
    page = Page(driver, program, ["--apart", *THREADS], status=1, folder=folder)
    for check in [check_head, check_all_files, check_whole, check_narrowing, check_zooms, check_odd_fragments, check_keys]:
        check(page)
    others(page)
    Graph(page, 0)
    page.run("document.querySelector('#files').open = true")
    check_narrow(page, len(BY_SELF) + 8)
    check_odd_elements(page)
    page.expect_silence()


def try_one_apart(driver, program, folder):
    """A page of one file is of one run, whether or not it is one of its own: there is no file to choose, and the address has today's form."""
    put_traces(folder, THREADS)
    for words, share in [(["one.json"], "70.0 %"), (["--apart", "one.json"], "70.0 %"), (["--apart", "--group-by", "file,name", "one.json"], "70.0 %")]:
        page = Page(driver, program, words, folder=folder)
        expect(f"the first row of {words}", page.rows("#names")[0][:3], ["alpha", "70", share])
        expect(f"the first count of {words}", page.text("#counts > :first-child"), "file one.json")
        expect(f"whether a file can be chosen with {words}", page.run("return document.getElementById('file').checkVisibility()"), False)
        expect(f"processes to choose with {words}", options(page, "process"), ["all processes", "app (7)"])
        expect(f"lines of graphs with {words}", lines_of_graphs(page), ["main (1) of process app (7)", "2 of process app (7)"])
        page.open("#file=1&process=7&thread=7.2&zoom=7.1.2")
        expect(f"the address with {words}", kept(page), "#process=7&thread=7.2&zoom=7.1.2")
        page.expect_silence()


def try_together(driver, program, folder):
    """Files of one run stand in the head, and nothing else distinguishes them."""
    put_traces(folder, THREADS)
    page = Page(driver, program, list(THREADS), status=1, folder=folder)
    expect("counts of files together", page.text("#counts").split()[:2], ["3", "files"])
    page.click("#files summary")
    expect("names of files together", names_of_files(page), ["one.json", "cut.json: 1 NotJson", "two.json"])
    expect("whether a file of a run can be chosen", page.run("return document.getElementById('file').checkVisibility()"), False)
    expect("processes of files together", len(options(page, "process")), 3)
    page.expect_silence()


# Two files with the same numbers and names

SAME = {
    name: [named("process_name", 7, 1, "app"), named("thread_name", 7, 1, "main"),
           span(7, 1, "alpha", 0, length), span(7, 1, "beta", 10, length // 10)]
    for name, length in [("a.json", 100), ("b.json", 300)]
}
SUMMED = [["alpha", "360", "90.0 %", "400", "2", "app (7)", "main (1)"], ["beta", "40", "10.0 %", "40", "2", "app (7)", "main (1)"]]
ALPHA_A, BETA_A = [["alpha", "90", "90.0 %", "100", "1", "a.json"], ["beta", "10", "10.0 %", "10", "1", "a.json"]]
ALPHA_B, BETA_B = [["alpha", "270", "90.0 %", "300", "1", "b.json"], ["beta", "30", "10.0 %", "30", "1", "b.json"]]


def try_summed(driver, program, folder):
    """Rows are sums over files that look alike."""
    put_traces(folder, SAME)
    page = Page(driver, program, ["--apart", *SAME], folder=folder)
    expect("summed rows", page.rows("#names"), SUMMED)
    choose(page, "file", "a.json")
    expect("summed rows of a file", page.rows("#names"), SUMMED)
    expect("the graph of a file", lines_of_graphs(page), ["main (1) of process app (7) in a.json"])
    page.write("a.json")
    expect("rows with a word of a file that no row has", (page.rows("#names"), lines_of_graphs(page)), ([], []))
    page.write("")
    page.click("#names tbody tr:nth-child(2) button")
    marked = Graph(page, 0).text(".graph > .status")
    expect("what a summed row marks in a file", marked, "1 frame marked, 10 \u00b5s, 10.0 % of the thread's busy time")
    page.expect_silence()


def check_rows_by_file(page):
    """Rows with the column file, sorted by it, from a click to the address and back."""
    expect("titles with files", page.titles("#names"), ["name", "self, \u00b5s", "of busy", "total, \u00b5s", "count", "file"])
    expect("whether rows are said to be of all files", "all files together" in page.text("#names-title + .hint"), False)
    expect("rows with files", page.rows("#names"), [ALPHA_B, ALPHA_A, BETA_B, BETA_A])
    page.click("#names th:nth-child(6) button")
    expect("rows by file", page.rows("#names"), [ALPHA_A, BETA_A, ALPHA_B, BETA_B])
    expect("the order by file", (order_of(page), page.fragment()), (["file", "ascending"], "#sort=file"))
    page.press(Keys.ENTER)
    expect("rows by file turned", page.rows("#names"), [ALPHA_B, BETA_B, ALPHA_A, BETA_A])
    page.open(page.fragment())
    expect("the order of an address by file", (order_of(page), page.fragment()), (["file", "descending"], "#sort=-file"))
    page.open()


def check_narrowing_to_files(page):
    """Words find a file's rows, and the frames of its graph alone; so does the choice of a file."""
    all_of_b, beta_of_b = "2 frames marked, together 300 \u00b5s, 100.0 %", "1 frame marked, 30 \u00b5s, 10.0 %"
    for words, rows, marked in [("b.json", [ALPHA_B, BETA_B], all_of_b), ("BETA b.", [BETA_B], beta_of_b), ("beta -A.J", [BETA_B], beta_of_b)]:
        page.write(words)
        expect(f"rows with {words!r}", page.rows("#names"), rows)
        expect(f"graphs with {words!r}", lines_of_graphs(page), ["main (1) of process app (7) in b.json"])
        expect(f"marks of {words!r}", Graph(page, 1).text(".graph > .status"), f"{marked} of the thread's busy time")
    page.write("")
    choose(page, "file", "a.json")
    expect("rows with the file", page.rows("#names"), [ALPHA_A, BETA_A])
    choose(page, "file", "all files")


def check_marks_of_files(page):
    """A click on a row marks the frames of its file's graph."""
    for row, place, marked in [(2, 0, "100 \u00b5s, 100.0 %"), (1, 1, "300 \u00b5s, 100.0 %"), (4, 0, "10 \u00b5s, 10.0 %")]:
        click_row(page, row)
        said = Graph(page, place).text(".graph > .status")
        expect(f"what row {row} marks", said, f"1 frame marked, {marked} of the thread's busy time")
        expect(f"the focus after row {row}", page.run("return document.activeElement.closest('details').id"), f"thread-{place}")


def try_with_files(driver, program, folder):
    """With the column file each file has rows of its own."""
    put_traces(folder, SAME)
    page = Page(driver, program, ["--apart", "--group-by", "file,name", *SAME], folder=folder)
    for check in [check_rows_by_file, check_narrowing_to_files, check_marks_of_files]:
        check(page)
    page.expect_silence()


def try_folder(driver, program, folder):
    """The same where the files are those of a folder, and the column has their paths below it."""
    os.makedirs(os.path.join(folder, "traces"))
    put_traces(os.path.join(folder, "traces"), SAME)
    page = Page(driver, program, ["--apart", "--group-by", "file,name", "traces"], folder=folder)
    for check in [check_rows_by_file, check_marks_of_files]:
        check(page)
    page.expect_silence()


def try_named_twice(driver, program, folder):
    """A file that is named twice is two runs, whose rows are one, since they have one name."""
    put_traces(folder, SAME)
    page = Page(driver, program, ["--apart", "--group-by", "file,name", "a.json", "a.json"], folder=folder)
    twice = [["alpha", "180", "90.0 %", "200", "2", "a.json"], ["beta", "20", "10.0 %", "20", "2", "a.json"]]
    graphs = "return [...document.querySelectorAll('#graphs > details')].map(graph => graph.id)"
    for fragment, shown in [("", ["thread-0", "thread-1"]), ("#file=1", ["thread-0"]), ("#file=2", ["thread-1"]), ("#process=2.7", ["thread-1"])]:
        page.open(fragment)
        expect(f"rows and graphs of a file that is named twice, {fragment!r}", (page.rows("#names"), page.run(graphs)), (twice, shown))
    page.expect_silence()


# Odd names of files

ODD = {
    "<img src=x onerror=alert(1)>&amp;.json": "<img src=x onerror=alert(1)>&amp;.json",
    '"quoted" \'name\' ; $(x) `y`': '"quoted" \'name\' ; $(x) `y`',
    RIGHT: RIGHT,
    TURNED: TURNED_SHOWN,
    "./-": "./-",
}


def renamed(text, names):
    """A page whose files have other names."""
    data = data_of(text)
    for run in data["runs"]:
        run["files"] = [names.get(name, name) for name in run["files"]]
        for name, other in names.items():
            for text in ["refused", "faults"]:
                run[text] = run[text].replace(json.dumps(name), json.dumps(other))
    for name, other in names.items():
        data["table"] = data["table"].replace(json.dumps(name), json.dumps(other))
    return page_text(data)


def try_odd_names(driver, program, folder):
    """Names of files stand as they are, in the head, in choices, lines and tables, and neither make elements nor stretch the page; one
    has more letters than a system's files can have."""
    put_traces(folder, {name: [span(7, 1, LONG, 0, 100 - at), 5, {"ph": "C", "pid": 7, "name": "heap", "ts": 1, "args": {"used": 1}}]
                        for at, name in enumerate([*ODD, "long.json"])})
    put_traces(folder, {"cut.json": "[{"})
    words = ["--apart", "--group-by", "file,name", "--", *ODD, "long.json", "cut.json"]
    page = MadePage(driver, renamed(Page(driver, program, words, status=1, folder=folder).source(), {"long.json": LONG, "cut.json": f"cut {LONG}"}))
    brief_cut = f"cut {LONG}"[:80] + "\u2026" + LONG[-79:]
    page.click("#files summary")
    expect("odd names", names_of_files(page), [*ODD.values(), BRIEF, f"{brief_cut}: 1 NotJson"])
    titles = page.run("return [...document.querySelectorAll('#files bdi')].map(name => name.title)")
    expect("odd names as titles", titles, [*ODD.values(), LONG, f"cut {LONG}"])
    direction = "return [...document.querySelectorAll('#files bdi')].map(name => [getComputedStyle(name).unicodeBidi, name.matches(':dir(rtl)')])"
    expect("the directions of names", page.run(direction), [["isolate", name == RIGHT] for name in [*ODD, LONG, LONG]])
    expect("odd names to choose", options(page, "file"), ["all files", *ODD.values(), BRIEF, brief_cut])
    isolated = page.run("return [...document.getElementById('process').options].slice(1).map(option => option.text)")
    wanted = [*ODD.values(), f"{LONG[:20]}\u2026{LONG[-19:]}"]
    expect("odd names with processes", isolated, [f"\u20687\u2069 in \u2068{name}\u2069" for name in wanted])
    expect("odd names in lines of graphs", lines_of_graphs(page), [f"1 of process 7 in {' '.join(name.split())}" for name in [*ODD.values(), BRIEF]])
    cells = page.run("return [...document.querySelectorAll('#names td:last-child bdi')].map(name => name.title)")
    expect("odd names in the table", cells, [*ODD.values(), LONG])
    refused = page.run("return [...document.querySelectorAll('#warnings > :nth-child(2) bdi')].map(name => name.title)")
    expect("odd names with refusals", refused, [*ODD.values(), LONG])
    page.click("#names tbody tr:nth-child(3) button")
    expect("the graph of an odd name", page.run("return document.activeElement.closest('details').id"), "thread-2")
    others(page)
    Graph(page, 0)
    check_narrow(page, 2 * (len(ODD) + 1) + 2)  # of names, of counters, and of callers and callees
    check_odd_elements(page)
    page.expect_silence()


# Many files


def try_many(driver, program, folder):
    """64 files with many names each, as far as a page has runs, are ready and narrowed in time; one file more, and the page has no runs."""
    names = 1_563
    many = {f"{at:02}.json": [5, *(span(7, 1, f"name {at} {name}", 10 * name, 1 + at % 3) for name in range(names))] for at in range(64)}
    put_traces(folder, many)
    page = Page(driver, program, ["--apart", "--group-by", "file,pid,tid,name", *many], folder=folder)
    ready = ready_of(page, "the page of 64 files")
    said = page.text("#names .status")
    expect("rows of 64 files", said.split(";")[0], f"10 of {64 * names:,} rows shown")
    expect("files to choose", options(page, "file"), ["all files", *many])
    page.click("#files summary")
    expect("names of 64 files", names_of_files(page), list(many))
    expect("counts of 64 files", page.text("#counts").split(),
           f"64 files {64 * names:,} events 64 refused 0 skipped 0 queries 64 processes 64 threads".split())
    lengths = page.run("return [...document.querySelectorAll('#warnings ul')].map(list => list.children.length)")
    expect("refusals that stand open and closed", lengths, [10, 54])
    expect("what the closed ones are called", page.text("#warnings summary"), "54 more")
    slowest = time_of(page, "narrowing to a file", """
        const choice = document.getElementById("file");
        choice.selectedIndex = 64;
        choice.dispatchEvent(new Event("change", { bubbles: true }));
    """)
    expect("rows of a file of 64", page.text("#names .status").split(";")[0], f"10 of {names:,} rows shown, narrowed from {64 * names:,}")
    expect("the graph of a file of 64", lines_of_graphs(page), ["1 of process 7 in 63.json"])
    slowest = max(slowest, time_of(page, "sorting by file", "document.querySelector('#names th:last-child button').click()"))
    slowest = max(slowest, time_of(page, "clicking on a row", "document.querySelector('#names tbody button').click()"))
    page.expect_silence()

    put_traces(folder, {"64.json": [span(7, 1, "last", 0, 5), 5], "cut.json": "[{"})
    few = list(many)[:63]
    page = Page(driver, program, ["--apart", *few, "64.json", "cut.json"], status=1, folder=folder)
    check_without_runs(page, 63 * names + 1)
    page = Page(driver, program, ["--apart", "--group-by", "name,file", *few, "64.json", "cut.json"], status=1, folder=folder)
    page.write("last 64.json")
    expect("rows with files of a page without runs", page.rows("#names"), [["last", "5", "5", "1", "64.json"]])
    page.expect_silence()
    return ready, slowest


def check_without_runs(page, spans):
    """A page of more than 64 files has counts and rows, says what it lacks, and offers nothing of it."""
    expect("counts without runs", page.text("#counts").split(), f"65 files {spans:,} events 64 refused 0 skipped 0 queries".split())
    expect("what is said of files without runs", page.text("#warnings > :first-child"),
           "Files that are no traces as a whole, of which nothing is here: 1. Standard error said why.")
    expect("what is lacking", page.text("#graphs-shown"), "A page of more than 64 files that are runs of their own has their counts, the "
           "table of their spans and the flame graph of all: none of a thread is here, and nothing else that was traced.")
    offers = "#file, #process, #thread, #files, #more-graphs, #left-out, #over-files"
    shown = "return [...document.querySelectorAll(arguments[0])].filter(one => one.checkVisibility()).map(one => one.id)"
    expect("what is offered without runs", page.run(shown, offers), [])
    expect("what else is said", (page.run("return others.children.length"), page.text("#names-title + .hint")),
           (0, "Times are whole microseconds. A click on a column sorts. The address shows the view again."))
    page.write("last")
    expect("rows without runs", page.rows("#names"), [["last", "5", "5", "1", "7", "1"]])
    page.click("#names tbody td")
    expect("what a row marks without runs", Graph(page, "whole").text(".status"), "1 frame marked, 5 \u00b5s, < 0.1 % of all busy time")
    page.open("#words=last&file=1&process=1.7&thread=7.1&zoom=7.1.0&sort=name")
    expect("the address without runs", kept(page), "#words=last&sort=name")
    check_odd_elements(page)
    page.expect_silence()


def try_apart(driver, program, folder):
    """All views of files; gives the time in which the page of the most files is ready, and in which it does what it is asked."""
    for view in [try_threads, try_one_apart, try_together, try_summed, try_with_files, try_folder, try_named_twice, try_odd_names]:
        view(driver, program, folder)
    return try_many(driver, program, folder)
