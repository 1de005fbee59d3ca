"""The page of a trace of 64 MiB, which must be ready in time: threads that ask the same requests, with calls and steps in them, twice."""
import os
from collections import Counter

from pages import Graph, Page, expect, fail
from views import ready_of, time_of


class LargeTrace:
    """Writes a trace of nearly 64 MiB, and counts its spans, their self times and the frames of a thread as it goes."""

    THREADS, REQUESTS, CALLS, STEPS = 4, 10, 50, [100, 75]

    def __init__(self, path):
        self.spans = self.self_time = 0
        self.requests = Counter()  # the microseconds of each on the first thread
        self.stacks = self.THREADS * self.REQUESTS * (1 + self.CALLS * (1 + self.STEPS[0]))
        self.names = self.THREADS * (self.REQUESTS + self.CALLS * (1 + self.STEPS[0]))
        with open(path, "w", encoding="utf-8") as self.file:
            self.file.write("[")
            for thread in range(1, 1 + self.THREADS):
                self.put_thread(thread)
            self.file.write("]")
        self.size = os.path.getsize(path)

    def put_thread(self, thread):
        time = 0
        for steps in self.STEPS:
            for request in range(self.REQUESTS):
                end = self.put_request(thread, request, steps, time)
                self.requests[f"request {request}"] += (end - time) * (thread == 1)
                time = end

    def put_request(self, thread, request, steps, start):
        """A request and its calls, each with a microsecond of its own before what stands in it; gives its end."""
        time = start + 1
        for call in range(self.CALLS):
            begin, time = time, time + 1
            for step in range(steps):
                length = 1 + (request + call + step + thread) % 5
                self.put(thread, f"step {step} of call {call} that is made often", time, length, length)
                time += length
            self.put(thread, f"call {call}", begin, time - begin, 1)
        self.put(thread, f"request {request}", start, time - start, 1)
        return time

    def put(self, thread, name, start, length, self_time):
        text = f'{{"ph":"X","pid":1,"tid":{thread},"name":"{name}","ts":{start},"dur":{length},"args":{{"text":"{"a" * 76}"}}}}'
        self.file.write((",\n" if self.spans else "") + text)
        self.spans += 1
        self.self_time += self_time


def try_largest(driver, program, folder):
    """Gives the time in which the page is ready, and in which it does what it is asked."""
    path = os.path.join(folder, "large.json")
    trace = LargeTrace(path)
    if not 63 * 2**20 < trace.size <= 64 * 2**20 or trace.stacks < 200_000:
        fail(f"a trace of {trace.size} bytes and {trace.stacks} stacks is not as large as it is meant to be")
    page = Page(driver, program, [path])
    ready = ready_of(page, "the page of the largest trace")
    said = page.text("#names .status")
    wanted = f"10 of {trace.names:,} rows shown; sum of self {trace.self_time:,} \u00b5s"
    if not said.startswith(wanted) or not said.endswith(f"; sum of count {trace.spans:,}"):
        fail(f"{said!r} of the largest trace, and not {wanted!r} and {trace.spans:,}")
    page.click("#names .table > button")
    expect("rows after more are asked for", len(page.shown_rows("#names")), 210)
    slowest = max([
        time_of(page, "sorting by name", "document.querySelector('#names th:nth-child(1) button').click()"),
        time_of(page, "searching", "words.value = 'step 33'; words.dispatchEvent(new Event('input'))"),
        time_of(page, "opening a graph", "document.querySelector('#graphs > details:not([open]) > summary').click()"),
    ])
    graph = Graph(page, 0)
    requests = {name: int(total) for name, _, _, total in graph.boxes()[1]}
    expect("requests of the first thread", requests, dict(trace.requests))
    slowest = max(slowest, time_of(page, "zooming", f"document.querySelector('{graph.section} .under button.name').click()"))
    slowest = max(slowest, time_of(page, "clicking on a row", "document.querySelector('#names tbody button').click()"))
    if page.run("return document.querySelectorAll('*').length") > 5_000:
        fail("the page of the largest trace has more elements than a person can look through")
    page.expect_silence()
    return ready, slowest
