"""Names that look like markup stand as they are, and the page's policy lets nothing act that was put in."""
import re

from pages import Graph, expect, fail
from typed import typed_page
from views import BRIEF, LONG, MARKUP, RIGHT, TURNED, TURNED_SHOWN, check_odd_elements


def check_odd_names(page):
    """Names stand as they are, and neither make elements nor stretch the page."""
    graph = Graph(page, 1)
    expect("odd names in a graph", sorted(name for level in graph.boxes()[1:] for name, *_ in level), sorted(["", MARKUP, TURNED, LONG, RIGHT]))
    for x, level, name in [(0.5, 1, MARKUP), (0.1, 2, LONG), (0.4, 2, TURNED_SHOWN), (0.97, 1, RIGHT)]:
        graph.pointer(x, level).perform()
        line = graph.text(".told").split("\n")[0]
        expect(f"what is said of {name[:20]}", (line, page.run("return arguments[0].title", page.element(f"{graph.section} .told bdi"))), (name, name))
    direction = "const style = getComputedStyle(arguments[0]); return [style.unicodeBidi, arguments[0].matches(':dir(rtl)')]"
    expect("the direction of a name from right to left", page.run(direction, page.element(f"{graph.section} .told bdi")), ["isolate", True])
    wanted = [LONG if row[0] == BRIEF else row[0] for row in page.rows("#names")]
    titles = "return [...document.querySelectorAll('#names td.name bdi')].map(name => name.title)"
    expect("the whole names as titles", page.run(titles), wanted)
    check_odd_elements(page)


def check_policy(page):
    """The page's policy lets its own style and script pass and nothing else; it is tried by markup that is put in, which must not act."""
    hashed = "'sha256-[A-Za-z0-9+/=]{44}'"
    policy = f"default-src 'none'; script-src {hashed}; style-src {hashed}; base-uri 'none'; form-action 'none'"
    stated = page.run("return document.querySelector('meta[http-equiv]').content")
    if not re.fullmatch(policy, stated):
        fail(f"the policy is {stated!r}")
    page.run("document.body.insertAdjacentHTML('beforeend', arguments[0])",
             '<img src="x.png" onerror="window.acted = 1"><p id="put" style="color: rgb(1, 2, 3)" onclick="window.acted = 2">put in</p>')
    page.run("const made = document.createElement('script'); made.textContent = 'window.acted = 3'; document.body.append(made)")
    page.click("#put")
    expect("what markup did", page.run("return [window.acted ?? null, getComputedStyle(put).color === 'rgb(1, 2, 3)']"), [None, False])
    if not any("Content Security Policy" in entry["message"] for entry in page.driver.get_log("browser")):
        fail("the policy refused nothing that was put in")


def try_markup(driver, program, folder):
    page = typed_page(driver, program, folder)
    check_odd_names(page)
    page.expect_silence()
    check_policy(page)
