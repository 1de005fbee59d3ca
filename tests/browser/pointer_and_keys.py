"""The frame that keys or the pointer lead to: which it is, and where what is said of it stands."""
from pages import LEVEL, ActionChains, Graph, Keys, ScrollOrigin, expect, fail
from typed import IN_BETA, IN_GAMMA, TOP, WHOLE, typed_page


def check_way(page):
    """By the tabulator alone from the page's start to a graph that was zoomed into, with the focus always seen."""
    graph = Graph(page, 0)
    graph.pointer(0.2, 2).click().perform()
    graph.click(".steps button:nth-child(2)")
    page.click("h1")
    focused = "return document.activeElement === document.querySelector(arguments[0])"
    outline = "return getComputedStyle(document.activeElement).outlineStyle + getComputedStyle(document.activeElement).outlineWidth"
    for _ in range(60):
        page.press(Keys.TAB)
        expect("the outline of the focus", page.run(outline), "solid2px")
        if page.run(focused, f"{graph.section} .view"):
            return
    fail("the tabulator doesn't lead to the graph")


def check_keys(page):
    """Through the frames of the graph that has the focus, in and out."""
    graph = Graph(page, 0)
    item = page.element(f"{graph.section} [role=treeitem]")
    for keys, said, level in [
        ([], "thread main (1): self 0 \u00b5s, total 120 \u00b5s, 100.0 %, 2 under it", "1"),
        ([Keys.DOWN, Keys.DOWN], "beta: self 40 \u00b5s, total 50 \u00b5s, 41.7 %, 1 under it", "3"),
        ([Keys.RIGHT], "aside: self 5 \u00b5s, total 5 \u00b5s, 4.2 %, 0 under it", "3"),
        ([Keys.LEFT], "beta: self 40 \u00b5s, total 50 \u00b5s, 41.7 %, 1 under it", "3"),
        ([Keys.UP], "alpha: self 45 \u00b5s, total 100 \u00b5s, 83.3 %, 2 under it", "2"),
        ([Keys.RIGHT], "gamma: self 20 \u00b5s, total 20 \u00b5s, 16.7 %, 0 under it", "2"),
        ([Keys.HOME, Keys.DOWN, Keys.DOWN, Keys.ENTER], "beta: self 40 \u00b5s, total 50 \u00b5s, 41.7 %, 1 under it", "3"),
    ]:
        page.press(*keys)
        seen = page.run("return [arguments[0].textContent, arguments[0].ariaLevel]", item)
        expect(f"the focused frame after {len(keys)} keys", seen, [said, level])
    graph.expect("the graph of beta by keys", 120, IN_BETA)
    page.press(Keys.DOWN, Keys.ENTER)
    graph.expect("the graph of gamma by keys", 120, IN_GAMMA)
    page.press(Keys.ESCAPE)
    graph.expect("the graph after Escape", 120, IN_BETA)
    page.press(Keys.BACKSPACE)
    graph.expect("the graph after Backspace", 120, WHOLE)


# Where the graph, what stands beside a frame and the line above the graph are in the window.
PLACES = "return ['canvas', '.tip', '.told'].map(place => document.querySelector(`${arguments[0]} ${place}`).getBoundingClientRect().toJSON())"
BETA = "beta\nself 40 \u00b5s, total 50 \u00b5s, 41.7 % of the thread's busy time"
GAMMA = "gamma\nself 20 \u00b5s, total 20 \u00b5s, 16.7 % of the thread's busy time"


def expect_beside(graph, what, said, left, top, bottom):
    """It overlaps this place of the graph's width from left to right, and reaches up to or down from these of its height."""
    graph.page.wait()
    canvas, tip, _ = graph.page.run(PLACES, graph.section)
    expect(what, graph.text(".tip"), said)
    x, above, below = canvas["x"] + left, canvas["y"] + top - tip["bottom"], tip["top"] - canvas["y"] - bottom
    if not (tip["left"] - 20 <= x <= tip["right"] + 20 and 0 <= (above if above > 0 else below) <= 20):
        fail(f"{what} stands at {tip}, and not beside {x} in {canvas}")
    if not (tip["left"] >= 0 and tip["right"] <= 1200 and tip["top"] >= 0 and tip["bottom"] <= 900):
        fail(f"{what} stands at {tip}, which is outside of the window")


def is_line_covered(graph):
    """Whether the line above the graph is scrolled under the bar that narrows."""
    line = graph.page.run(PLACES, graph.section)[2]
    return line["bottom"] <= graph.page.run("return document.querySelector('#narrowing').getBoundingClientRect().bottom")


def check_beside_pointer(graph, block, is_covered):
    for x, level, said in [(0.2, 2, BETA), (0.95, 1, GAMMA)]:
        graph.pointer(x, level).perform()
        middle = LEVEL * (level + 0.5)
        expect_beside(graph, "what is said beside the pointer", said, x * graph.width(), middle, middle)
        expect(f"whether the line is covered at the {block}", is_line_covered(graph), is_covered)


def check_beside_focus(graph):
    page = graph.page
    page.run("arguments[0].focus({ preventScroll: true })", page.element(f"{graph.section} .view"))
    for keys, said, left, level in [([Keys.DOWN, Keys.DOWN], BETA, 0, 2), ([Keys.UP, Keys.RIGHT], GAMMA, 100, 1)]:
        page.press(*keys)
        expect_beside(graph, "what is said beside the focused frame", said, left * graph.width() / 120, LEVEL * level, LEVEL * (level + 1))
    page.press(Keys.HOME)
    page.run("document.activeElement.blur()")
    expect("what is said without a focus", page.run("return arguments[0].hidden", page.element(f"{graph.section} .tip")), True)


def check_told(page):
    """What is said of a frame stands beside the pointer and beside the frame that keys lead to, within the window, wherever the page is
    scrolled to and the line above the graph with it."""
    graph = Graph(page, 0)
    page.run("scrollTo(0, 0)")
    page.click("#names tbody tr:nth-child(3) button")  # What is said of marks stands between the line and the graph.
    page.press(Keys.HOME)
    page.run("document.body.style.paddingBottom = '900px'")
    for block, is_covered in [("end", False), ("start", True)]:
        page.run("arguments[0].scrollIntoView({ block: arguments[1] })", graph.canvas, block)
        check_beside_pointer(graph, block, is_covered)
        check_beside_focus(graph)


def turn(graph, x, level, pixels, *keys):
    """The wheel turned at a part of the width of a level, while keys are held."""
    page, size = graph.page, graph.canvas.size
    graph.pointer(x, level).perform()
    at = ScrollOrigin.from_element(graph.canvas, int(x * size["width"] - size["width"] / 2), int(LEVEL * (level + 0.5) - size["height"] / 2))
    steps = ActionChains(page.driver)
    for key in keys:
        steps.key_down(key)
    steps.scroll_from_origin(at, 0, pixels)
    for key in keys:
        steps.key_up(key)
    steps.perform()
    page.wait()


def expect_part(graph, what, start, length, levels):
    """These levels, by names with where they begin and how long they are, are what is drawn of so much of the thread's time."""
    scale = graph.width() / length
    seen = [[(name, round(start + x / scale), round(width / scale)) for name, x, width, _ in level] for level in graph.boxes()]
    expect(what, seen, levels)


def check_wheel(page):
    """The wheel with Ctrl shows frames wider or narrower where the pointer is, and no others; what leaves a zoom leaves this too."""
    graph = Graph(page, 0)
    turn(graph, 0.75, 1, -120, Keys.CONTROL)
    right_half = [[TOP], [("alpha", 0, 100), ("gamma", 100, 20)], [("beta", 0, 50), ("aside", 50, 5)]]
    expect_part(graph, "frames twice as wide", 45, 60, right_half)
    turn(graph, 0.99, 1, -240, Keys.CONTROL)
    expect_part(graph, "frames eight times as wide", 89.55, 15, [[TOP], [("alpha", 0, 100), ("gamma", 100, 20)]])
    kept = """
        const turn = new WheelEvent("wheel", { ctrlKey: arguments[1], deltaY: 120, cancelable: true });
        arguments[0].dispatchEvent(turn);
        return turn.defaultPrevented;
    """
    expect("whether the browser is kept from making all greater", [page.run(kept, graph.canvas, has_key) for has_key in (True, False)], [True, False])
    graph.pointer(0.99, 1).perform()
    expect("what is said at the pointer", graph.text(".tip").split("\n")[0], "gamma")
    turn(graph, 0.99, 1, 1200, Keys.CONTROL)
    graph.expect("the graph turned back", 120, WHOLE)
    for what, leave in [("0", lambda: page.press("0")), ("0 elsewhere", lambda: (page.click("h1"), page.press("0"))),
                        ("Escape", lambda: (page.run("arguments[0].focus()", page.element(f"{graph.section} .view")), page.press(Keys.ESCAPE))),
                        ("a button", lambda: graph.click(".steps button:nth-child(2)"))]:
        turn(graph, 0.5, 1, -120, Keys.CONTROL)
        expect(f"frames before {what}", round(graph.boxes()[0][0][2] / graph.width(), 2), 2)
        leave()
        graph.expect(f"the graph after {what}", 120, WHOLE)
    place = page.run("return scrollY")
    turn(graph, 0.5, 1, 120)
    graph.expect("the graph after the wheel alone", 120, WHOLE)
    expect("whether the wheel alone scrolls", page.run("return scrollY") > place, True)


def check_keys_of_page(page):
    """`/` leads to the words, and 0 leaves the zooms; where a person writes or chooses these are letters."""
    graph = Graph(page, 0)
    graph.pointer(0.2, 2).click().perform()
    graph.expect("the graph of beta", 120, IN_BETA)
    page.click("h1")
    page.press("/")
    expect("the focus after a stroke", page.run("return document.activeElement.id"), "words")
    page.press("0", "/")
    expect("what was written", page.run("return words.value"), "0/")
    page.write("")
    graph.expect("the graph after 0 among the words", 120, IN_BETA)
    page.run("document.activeElement.blur()")
    page.press("0")
    graph.expect("the graph after 0", 120, WHOLE)
    expect("the address after 0", page.fragment(), "")
    graph.click(".steps button:nth-child(1)")
    graph.expect("the graph after going back from 0", 120, IN_BETA)
    page.run("arguments[0].focus()", page.element(f"{graph.section} .view"))
    page.press("0")
    graph.expect("the graph after 0 in it", 120, WHOLE)
    page.run("arguments[0].focus()", page.element("#order"))
    page.press("/")
    expect("the focus after a stroke in a choice", page.run("return document.activeElement.id"), "order")


def try_pointer_and_keys(driver, program, folder):
    page = typed_page(driver, program, folder)
    for check in [check_way, check_keys, check_told]:
        check(page)
    page.expect_silence()
    page.open()
    for check in [check_wheel, check_keys_of_page]:
        check(page)
    page.expect_silence()
