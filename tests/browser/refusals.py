"""What is said of events that were refused, and of files that are no traces."""
import json
import os
import re

from built import ROOT
from elements import faults_in
from pages import Page, expect, fail
from reading import MICROSECONDS
from typed import BY_SELF, TYPED, typed_path
from views import put_traces, refusals


def try_reasons(driver, program, folder):
    """Each number that can refuse an event has its reason in words."""
    with open(os.path.join(ROOT, "docs", "tracebook.1"), encoding="utf-8") as file:
        numbers = re.findall(r"^\.B ([12]\d) \w+$", file.read(), re.MULTILINE)
    on_keys = [{"ph": "f", "id": 1, "ts": 1}, {"ph": "s", "id": 1, "ts": 1}, {"ph": "s", "id": 1, "ts": 1}, {"ph": "e", "id": 1, "ts": 1}]
    on_keys += [{"ph": "b", "id": 2, "ts": 5}, {"ph": "e", "id": 2, "ts": 1}]
    on_threads = [{"ph": "E", "ts": 0}, {"ph": "B", "name": "a", "ts": 5}, {"ph": "B", "ts": 4}, {"ph": "E", "name": "b", "ts": 5}]
    elements = [kinds[0] for kinds in faults_in(MICROSECONDS).values()] + [json.dumps(event) for event in on_keys + on_threads]
    put_traces(folder, {"refused.json": f"[{','.join(elements)}]"})
    page = Page(driver, program, ["--strict", "refused.json"], folder=folder)
    items = refusals(page)
    expect("the numbers of the refusals", [item.split(" ")[2] for item in items], numbers)
    for item in items:
        if not re.match(r"1 \u00d7 \d\d \w+: .*; first at element \d+ of ", item):
            fail(f"no reason in {item!r}")
    page.expect_silence()


def try_unread(driver, program, folder):
    """A file that is no trace is counted, and said to be missing."""
    put_traces(folder, {"typed.json": TYPED, "cut.json": '[{"ph":"B"'})
    path = os.path.join(folder, "cut.json")
    page = Page(driver, program, [typed_path(folder), path], status=1)
    expect("files", page.text("#counts").split()[:2], ["2", "files"])
    expect("what is said of files", page.text("#warnings > :first-child").split("\n\n"),
           ["Files that are no traces as a whole, of which nothing is here: 1.", f"{path}: 1 NotJson"])
    expect("rows of the file that is one", page.rows("#names"), BY_SELF)
    page.expect_silence()


def try_refusals(driver, program, folder):
    try_reasons(driver, program, folder)
    try_unread(driver, program, folder)
