"""A typed trace with spans of all lengths and odd names and with all else that a trace can have, and the rows and graph it must show."""
import os

from pages import Page
from views import BRIEF, LONG, MARKUP, RIGHT, TURNED, TURNED_SHOWN, named, put_traces, span

FAR = 2**53 - 1
TYPED = [
    named("process_name", 7, 1, "app"), named("thread_name", 7, 1, "main"),
    span(7, 1, "alpha", 0, 100), span(7, 1, "beta", 10, 30), span(7, 1, "gamma", 15, 10), span(7, 1, "beta", 50, 20),
    span(7, 1, "aside", 75, 5), span(7, 1, "gamma", 200, 20),
    span(7, 2, MARKUP, 0, 70), span(7, 2, TURNED, 10, 20), span(7, 2, LONG, 40, 20), span(7, 2, RIGHT, 100, 5),
    span(7, 2, "", 110, 5),
    span(8, 1, "far", -FAR, FAR), span(8, 1, "far", 0, FAR), span(8, 1, "near", 0, 1),
    {"ph": "B", "pid": 8, "tid": 2, "name": "unclosed", "ts": 5},
    {"ph": "b", "pid": 7, "name": "load", "cat": "net<", "id": 5, "ts": 1},
    {"ph": "e", "pid": 7, "name": "load", "cat": "net<", "id": 5, "ts": 31},
    {"ph": "s", "pid": 7, "name": "hop", "id2": {"local": "x"}, "ts": 4},
    {"ph": "f", "pid": 7, "name": "hop", "id2": {"local": "x"}, "ts": 9},
    {"ph": "C", "pid": 7, "name": "heap", "ts": 1, "args": {"used": -FAR}},
    {"ph": "C", "pid": 7, "name": "heap", "ts": 2, "args": {"used": 12}},
    {"ph": "i", "pid": 7, "tid": 1, "name": "paint", "ts": 3, "s": "p"},
    {"ph": "P"}, 5, {"ph": "E", "pid": 9, "ts": 1}, 6,
]
MAIN, OTHER, UNNAMED = ["app (7)", "main (1)"], ["app (7)", "2"], ["8", "1"]
# Name, self, share of the thread's busy time, total, count, process and thread.
ALPHA = ["alpha", "45", "37.5 %", "100", "1", *MAIN]
BETA = ["beta", "40", "33.3 %", "50", "2", *MAIN]
GAMMA = ["gamma", "30", "25.0 %", "30", "2", *MAIN]
ASIDE = ["aside", "5", "4.2 %", "5", "1", *MAIN]
MARKED = [MARKUP, "30", "37.5 %", "70", "1", *OTHER]
TURNED_ROW = [TURNED_SHOWN, "20", "25.0 %", "20", "1", *OTHER]
LONG_ROW = [BRIEF, "20", "25.0 %", "20", "1", *OTHER]
EMPTY = ['""', "5", "6.3 %", "5", "1", *OTHER]
RIGHT_ROW = [RIGHT, "5", "6.3 %", "5", "1", *OTHER]
FAR_ROW = ["far", "18,014,398,509,481,981", "100.0 %", "18,014,398,509,481,982", "2", *UNNAMED]
NEAR = ["near", "1", "< 0.1 %", "1", "1", *UNNAMED]
BY_SELF = [FAR_ROW, ALPHA, BETA, GAMMA, MARKED, LONG_ROW, TURNED_ROW, ASIDE, EMPTY, RIGHT_ROW, NEAR]

# Names, where they begin and how long they are, on the thread "main".
TOP = ("thread main (1)", 0, 120)
WHOLE = [[TOP], [("alpha", 0, 100), ("gamma", 100, 20)], [("beta", 0, 50), ("aside", 50, 5)], [("gamma", 0, 10)]]
IN_BETA = [[TOP], [("alpha", 0, 120)], [("beta", 0, 120)], [("gamma", 0, 24)]]
IN_GAMMA = [*IN_BETA[:3], [("gamma", 0, 120)]]


def typed_path(folder):
    return os.path.join(folder, "typed.json")


def typed_page(driver, program, folder):
    """The page of the typed trace, as it is at first."""
    put_traces(folder, {"typed.json": TYPED})
    return Page(driver, program, [typed_path(folder)])
