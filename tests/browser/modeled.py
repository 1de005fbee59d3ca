"""Pages of the example traces have the rows, frames, callers and callees that the model gives."""
import os
from collections import Counter

import report
import tables
from built import ROOT
from calls import ITSELF, OUTERMOST
from pages import Graph, Page, expect
from stacks import stacks_of

CLICKED = 6  # rows of each thread


def wanted_rows(ledger):
    """The numbers, the name, the process and the thread of each row of the table."""
    label = lambda number, name: str(number[1]) if name == tables.MISSING else f"{name[1]} ({number[1]})"
    table = tables.table_of(["pid", "process", "tid", "thread", "name"], [tables.Run(ledger)])
    return [(name[1], f"{own:,}", f"{total:,}", f"{count:,}", label(pid, process), label(tid, thread))
            for (pid, process, tid, thread, name), (count, total, own) in table.rows.items()]


def wanted_boxes(stacks, width):
    """How often a frame of a name and a time stands on each level, of those that are a pixel wide."""
    totals = Counter()
    for stack, time in stacks:
        for length in range(1, len(stack) + 1):
            totals[stack[:length]] += time
    scale = width / sum(time for _, time in stacks)
    return Counter((len(stack), stack[-1], str(total)) for stack, total in totals.items() if total * scale >= 1)


def wanted_calls(stacks, name):
    """The time of the stacks in which each label is right around a name, or right under it."""
    callers, callees = Counter(), Counter()
    for stack, time in stacks:
        places = [at for at, label in enumerate(stack) if label == name]
        for label in {(OUTERMOST, *stack)[at] for at in places}:
            callers[label] += time
        for label in {(*stack, ITSELF)[at + 1] for at in places}:
            callees[label] += time
    return [sorted((label, f"{time:,}") for label, time in calls.items()) for calls in (callers, callees)]


def check_calls(page, place, stacks):
    """The callers and callees of the first names of a thread."""
    page.run("const choice = document.getElementById('thread'); choice.value = arguments[0]; choice.dispatchEvent(new Event('change'))", place)
    for row, (name, *_) in enumerate(page.shown_rows("#names")[:CLICKED], 1):
        page.run("document.querySelector(`#names tbody tr:nth-child(${arguments[0]})`).click()", row)
        seen = [sorted((label, time) for label, time, _ in page.rows(f"#calls-lists > :nth-child({at})")) for at in (1, 2)]
        expect(f"callers and callees of {name} on thread {place}", seen, wanted_calls(stacks, name))


def try_model(driver, program, path):
    """Shows the whole table, all graphs and some calls of a trace, and compares them with the model's."""
    ledger, _ = report.collect([(path, report.bytes_of(path))])
    page = Page(driver, program, [path])
    seen = [(row[0], row[1], *row[3:]) for row in page.rows("#names")]
    expect(f"rows of {path}", sorted(seen), sorted(wanted_rows(ledger)))
    threads = [process.threads[at] for _, process in sorted(ledger.processes.items()) for at in sorted(process.threads)]
    shown = [(place, stacks) for place, thread in enumerate(threads) if (stacks := stacks_of(thread.closed))]
    for place, stacks in shown:
        graph = Graph(page, place)
        boxes = Counter((at, name, total) for at, level in enumerate(graph.boxes()[1:], 1) for name, _, _, total in level)
        expect(f"boxes of thread {place} of {path}", boxes, wanted_boxes(stacks, graph.width()))
    for place, stacks in shown:
        check_calls(page, place, stacks)
    page.expect_silence()


def try_modeled(driver, program, folder):
    for trace in ["page_load.json", "traces/clang.json", "traces/node.json"]:
        try_model(driver, program, os.path.join(ROOT, "examples", trace))
