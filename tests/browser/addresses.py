"""What an address holds of a view behind its #, and what a page makes of any address."""
from pages import Graph, expect
from typed import ALPHA, ASIDE, BETA, BY_SELF, FAR_ROW, IN_BETA, NEAR, WHOLE, typed_page
from views import order_of

# The address behind # of a view of the typed trace.
IN_BETA_BY_NAME = "#words=a+-ga&process=7&thread=7.1&sort=name&order=name&zoom=7.1.3"
# What no page wrote, each with the words that it still gives.
ODD_FRAGMENTS = [
    ("#", ""), ("#%", ""), ("#%ff%00=%", ""), ("#words", ""), ("#names-title", ""), ("#=&&==", ""), ("#words=%f0%9f%zz", "\ufffd%zz"),
    ("#words=<img src=x onerror=alert(1)>", "<img src=x onerror=alert(1)>"), ("#words=" + "a " * 40_000, "a " * 1_000),
    ("#sort=constructor&order=__proto__&process=toString&thread=__proto__", ""), ("#sort=-&order=&process=&thread=&zoom=", ""),
    ("#process=7.1&thread=7", ""), ("#process=8&process=7&thread=9.9", ""), ("#sort=-nothing&sort=name", ""),
    ("#zoom=7.1.999999999&zoom=7.1.-1&zoom=7.1&zoom=7.1.1e1&zoom=7.1.9999999999&zoom=8.2.0&zoom=.", ""),
    ("#" + "zoom=7.1.0&" * 5_000, ""), ("#javascript:alert(1)", ""), ("#:~:text=alpha", ""),
]


def choices(page):
    return page.run("return [words.value, ...['process', 'thread', 'order'].map(id => document.getElementById(id).selectedOptions[0].text)]")


def check_kept_view(page):
    """What is narrowed to, sorted and zoomed into stands in the address, and is there again where the address is opened."""
    steps = page.run("return history.length")
    expect("the address at first", page.fragment(), "")
    page.write("a -ga")
    expect("the address with words", page.fragment(), "#words=a+-ga")
    page.choose("process", "app (7)")
    page.choose("thread", "main (1)")
    page.click("#names th:nth-child(1) button")
    page.choose("order", "by name")
    graph = Graph(page, 0)
    graph.pointer(0.3, 2).click().perform()
    graph.pointer(0.3, 2).perform()
    expect("the address of a view", page.fragment(), IN_BETA_BY_NAME)
    expect("steps back", page.run("return history.length"), steps)
    page.open(IN_BETA_BY_NAME)
    expect_view(page, [ALPHA, ASIDE, BETA], ["name", "ascending"], ["a -ga", "app (7)", "main (1)", "by name"])
    expect("the address that was opened", page.fragment(), IN_BETA_BY_NAME)
    graph = Graph(page, 0)
    graph.expect("the graph of an address", 120, IN_BETA)
    graph.click(".steps button:nth-child(1)")
    expect("the address after going back", page.fragment(), IN_BETA_BY_NAME.removesuffix("&zoom=7.1.3"))
    page.write("")
    page.choose("process", "all processes")
    page.choose("order", "widest first")
    page.click("#names th:nth-child(5) button")
    expect("the address by count", page.fragment(), "#sort=-count")
    page.click("#names th:nth-child(2) button")
    expect("the address of the view at first", page.fragment(), "")
    page.run("location.hash = 'words=near&zoom=8.1.2'")
    page.wait()
    expect_view(page, [NEAR], ["self, \u00b5s", "descending"], ["near", "all processes", "all threads", "widest first"])
    expect("the graph of a narrow frame", [[name for name, *_ in level] for level in Graph(page, 2).boxes()], [["thread 1"], ["far"], ["near"]])


def expect_view(page, rows, order, chosen):
    fragment = page.fragment()[:100]
    expect(f"rows of {fragment!r}", page.rows("#names"), rows)
    expect(f"the order of {fragment!r}", order_of(page), order)
    expect(f"choices of {fragment!r}", choices(page), chosen)


def check_odd_fragments(page):
    """Whatever stands in the address the page is ready, shows what it can find of it, and nothing else comes of it."""
    elements = "return [document.scripts.length, document.querySelectorAll('img').length]"
    for fragment, words in ODD_FRAGMENTS:
        page.open(fragment)
        chosen = choices(page)
        expect(f"words of {fragment[:100]!r}", chosen[0], words)
        if words == "":
            process = "8" if fragment.startswith("#process=8") else "all processes"
            rows = [FAR_ROW, NEAR] if process == "8" else BY_SELF
            expect_view(page, rows, ["self, \u00b5s", "descending"], ["", process, "all threads", "widest first"])
        if "zoom" in fragment:
            Graph(page, 0).expect(f"the graph of {fragment[:100]!r}", 120, WHOLE)
        expect(f"elements of {fragment[:100]!r}", page.run(elements), [2, 0])
        page.expect_silence()


def try_addresses(driver, program, folder):
    page = typed_page(driver, program, folder)
    check_kept_view(page)
    page.expect_silence()
    check_odd_fragments(page)
