"""What columns show: values that are there, paths without what they have in common, and names in lines that end where words do; and how
much of a table is shown at first."""
import os

from built import ROOT
from details import detailed
from pages import LEVEL, Page, expect, fail
from views import FIRST_ROWS, check_odd_elements, put_traces, span

SCREEN = 720  # pixels that a laptop's screen has for a page, one below another
TOOLS = "/usr/bin/../lib/gcc/x86_64-linux-gnu/12/../../../../include"
# Paths of a system and of a project, and what is shown of each: two that lead to one file, one that is the only one of its tree, one
# outside of the folder of nearly all others, and texts that are no paths are shown whole.
SHORT = {
    f"{TOOLS}/c++/12/string": "\u2026/c++/12/string",
    f"{TOOLS}/c++/12/bits/stl_map.h": "\u2026/c++/12/bits/stl_map.h",
    "/usr/include/features.h": "\u2026/features.h",
    "/usr/include/stdio.h": "/usr/include/stdio.h",
    f"{TOOLS}/stdio.h": f"{TOOLS}/stdio.h",
    "/home/me/project/src/<b>.h": "\u2026/src/<b>.h",
    "/home/me/project/./main.cc": "\u2026/main.cc",
    "/opt/alone/x.h": "/opt/alone/x.h",
    "/usr/lib/clang/14/include/stddef.h": "/usr/lib/clang/14/include/stddef.h",
    "../../base/a.cc": "\u2026/a.cc",
    "../../base/task/b.cc": "\u2026/task/b.cc",
    "std::map<a/b>": "std::map<a/b>",
    "main.cc": "main.cc",
    "/": "/",
}
# So many more below the tools' folder that the one outside of it is one of more than twenty.
MORE = {f"{TOOLS}/c++/12/ext/{at}.h": f"\u2026/c++/12/ext/{at}.h" for at in range(20)}


def check_paths(page):
    """Each path is shown without its tree's folder; the whole is its title, and words find it by that."""
    shown = {**SHORT, **MORE}
    rows = page.rows("#names")
    expect("shown paths", sorted(row[1] for row in rows), sorted(shown.values()))
    titles = page.run("return [...document.querySelectorAll('#names td.detail bdi')].map(path => path.title)")
    expect("whole paths as titles", titles, [next(path for path in shown if path == title) for title in titles])
    expect("shown paths by titles", {title: row[1] for title, row in zip(titles, rows)}, shown)
    page.write("gcc string")
    expect("rows with words of what isn't shown", [row[1] for row in page.rows("#names")], ["\u2026/c++/12/string"])
    page.click("#names tbody button")
    expect("a path in the panel", page.text("#calls-of").split(" in stacks")[0], "Source \u2026/c++/12/string")
    page.click("#calls-close")
    page.write("")


def check_values(page):
    """A column in which no row has a value isn't shown, and is no order; the others are."""
    expect("titles without values", page.titles("#names"), ["name", "args.detail", "self, \u00b5s", "of busy", "total, \u00b5s", "count"])
    page.open("#sort=args.none")
    expect("the order by what isn't shown", page.run("return document.querySelector('#names th[aria-sort$=ending]').innerText.trim()"), "self, \u00b5s")


def check_no_values(page):
    expect("titles where no column has values", page.titles("#names")[0], "args.none")
    expect("rows without values", [row[0] for row in page.rows("#names")], ["-"])


# Names with blanks and hyphens. A line may end behind `::`, `/` and `_`, but for an `_` that begins a word, and before a capital.
NAMES = [
    "std::__detail::_Executor::_M_rep_once_more and::some-more std::regex_traits-of char::transform_primary",
    "browser/renderer-host/navigation request/HTTPResponseHeadersParser-state machine/DidFinishLoadingResource",
    "std::thread::a lambda at-main.cc of it::b lambda at-other.cc of it::c lambda at-third.cc of it::d lambda at-fourth.cc of it",
    "RunNormalPriorityTaskQueueOf theMainThreadScheduler-for CompositorFrameSinkSupport with theVizHostClient",
]
# The texts before and behind each end of a line within a name.
ENDS_OF_LINES = """
    const ends = [];
    for (const name of document.querySelectorAll("#names td.name bdi")) {
      const letters = [];
      const walker = document.createTreeWalker(name, NodeFilter.SHOW_TEXT);
      for (let node = walker.nextNode(); node; node = walker.nextNode()) {
        for (let at = 0; at < node.data.length; at += 1) {
          const range = new Range();
          range.setStart(node, at);
          range.setEnd(node, at + 1);
          const { top, width } = range.getBoundingClientRect();
          if (width > 0) letters.push([node.data[at], top]);
        }
      }
      const text = letters.map(([letter]) => letter).join("");
      letters.forEach(([, top], at) => { if (at > 0 && top > letters[at - 1][1] + 5) ends.push([text.slice(0, at), text.slice(at)]); });
    }
    return ends;
"""


def check_lines(page):
    """Names end their lines where they may, on any screen; the letters stay the same."""
    expect("names that are divided", sorted(row[0] for row in page.rows("#names")), sorted(NAMES))
    for width in [1200, 700, 360, 300]:
        page.resize(width)
        page.wait()
        ends = page.run(ENDS_OF_LINES)
        if len(ends) < len(NAMES):
            fail(f"names have {len(ends)} ends of lines at {width} pixels")
        for before, behind in ends:
            if not (before.endswith(("::", "/", "_")) or behind[0].isupper()) or before.endswith("::_"):
                fail(f"a line at {width} pixels ends between {before!r} and {behind!r}")
    page.resize()


def try_first_screen(driver, program, folder):
    """Ten rows at first, and the flame graph begins on a laptop's screen; the others come when asked for."""
    page = Page(driver, program, ["--group-by", "name,args.detail", os.path.join(ROOT, "examples", "traces", "clang.json")])
    page.resize(1366)
    page.wait()
    below = page.run("return document.querySelector('canvas').getBoundingClientRect().top")
    if not 0 < below <= SCREEN - 2 * LEVEL:
        fail(f"the flame graph begins {below} pixels below the top")
    page.resize()
    expect("rows at first", (len(page.shown_rows("#names")), page.text("#names .more")), (FIRST_ROWS, "Show 119 more"))
    page.click("#names .more")
    expect("rows after more are asked for", len(page.shown_rows("#names")), FIRST_ROWS + 119)
    expect("the focus after more", page.run("return document.activeElement.closest('tr').rowIndex"), FIRST_ROWS + 1)
    page.expect_silence()


def try_columns(driver, program, folder):
    paths = [*SHORT, *MORE]
    put_traces(folder, {"paths.json": [detailed(1, "Source", 10 * at, 5, path) for at, path in enumerate(paths)],
                        "names.json": [span(1, 1, name, 10 * at, 5) for at, name in enumerate(NAMES)]})
    for words, check in [("name,args.detail", check_paths), ("name,args.none,args.detail", check_values), ("args.none", check_no_values)]:
        page = Page(driver, program, ["--group-by", words, "paths.json"], folder=folder)
        check(page)
        check_odd_elements(page)
        page.expect_silence()
    page = Page(driver, program, ["--group-by", "name", "names.json"], folder=folder)
    check_lines(page)
    page.expect_silence()
    try_first_screen(driver, program, folder)
