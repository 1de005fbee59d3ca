"""Flame graphs: widths and order of frames, what is said at the pointer, zooming by clicks, and marks."""
from pages import Graph, expect
from typed import IN_BETA, IN_GAMMA, WHOLE, typed_page
from views import click_row


def check_graph(page):
    """Widths, order, what is said at the pointer, and zooming by clicks."""
    expect("the graph that is open at first", page.run("return [...document.querySelectorAll('#graphs > details')].map(d => d.open)"),
           [True, False, False])
    graph = Graph(page, 0)
    graph.expect("the graph", 120, WHOLE)
    page.choose("order", "by name")
    graph.expect("the graph by name", 120, [*WHOLE[:2], [("aside", 0, 5), ("beta", 5, 50)], [("gamma", 5, 10)]])
    page.choose("order", "widest first")
    for x, level, said in [
        (0.2, 2, "beta\nself 40 \u00b5s, total 50 \u00b5s, 41.7 % of the thread's busy time"),
        (0.9, 1, "gamma\nself 20 \u00b5s, total 20 \u00b5s, 16.7 % of the thread's busy time"),
        (0.7, 3, "thread main (1)\nself 0 \u00b5s, total 120 \u00b5s, 100.0 % of the thread's busy time"),
    ]:
        graph.pointer(x, level).perform()
        expect("what is said at the pointer", graph.text(".told"), said)
    graph.pointer(0.2, 2).click().perform()
    graph.expect("the graph of beta", 120, IN_BETA)
    graph.click(".under > summary")
    expect("rows directly under beta", page.rows(f"{graph.section} .under"), [["gamma", "10", "10"]])
    graph.pointer(0.1, 3).click().perform()
    graph.expect("the graph of gamma", 120, IN_GAMMA)
    graph.click(".steps button:nth-child(1)")
    graph.expect("the graph after going back", 120, IN_BETA)
    graph.pointer(0.5, 0).click().perform()
    graph.expect("the graph after a click on the thread", 120, WHOLE)


def check_marks(page):
    """What is searched is marked with its time, frames under one another once, and a name in the table leads to its graph."""
    graph = Graph(page, 0)
    for words, marked, threads in [
        ("gamma", "2 frames marked, together 30 \u00b5s, 25.0 % of the thread's busy time", "1 of 1 threads shown, narrowed from 3"),
        ("a -ph", "4 frames marked, together 75 \u00b5s, 62.5 % of the thread's busy time", "3 of 3 threads shown"),
        ("-ph", "", "3 of 3 threads shown"),
        ("", "", "3 of 3 threads shown"),
    ]:
        page.write(words)
        expect(f"what is said of marks of {words!r}", graph.text(".graph > .status"), marked)
        expect(f"threads with {words!r}", page.text("#graphs-shown"), f"{threads}; in 1 more no span covers a microsecond")
    page.click("#names tbody tr:nth-child(3) button")
    said = "1 frame marked, 50 \u00b5s, 41.7 % of the thread's busy time"
    expect("what is said of a name", graph.text(".graph > .status"), said)
    expect("the focus after a name", page.run("return document.activeElement.role"), "tree")


def check_marks_in_zoom(page):
    """What is marked outside of a zoom is said, and a click on a name shows its frames whatever is zoomed into."""
    graph = Graph(page, 0)
    graph.pointer(0.2, 2).click().perform()
    page.write("aside")
    outside = "; 1 frame outside of what is zoomed into"
    expect("marks outside of a zoom", graph.text(".graph > .status"), f"1 frame marked, 5 \u00b5s, 4.2 % of the thread's busy time{outside}")
    page.write("")
    for row, name, levels, marked in [
        (2, "alpha", IN_BETA, "1 frame marked, 100 \u00b5s, 83.3 %"),
        (4, "gamma", IN_BETA, "2 frames marked, together 30 \u00b5s, 25.0 %"),
        (8, "aside", WHOLE, "1 frame marked, 5 \u00b5s, 4.2 %"),
    ]:
        click_row(page, row)
        graph.expect(f"the graph after a click on {name}", 120, levels)
        said = f"{marked} of the thread's busy time{outside if name == 'gamma' else ''}"
        expect(f"what is said of {name}", graph.text(".graph > .status"), said)
        expect(f"the frame that is shown of {name}", graph.text("[role=treeitem]").split(":")[0], name)
    graph.click(".steps button:nth-child(1)")
    graph.expect("the graph before it was left", 120, IN_BETA)
    graph.click(".steps button:nth-child(2)")
    page.rows("#names")
    click_row(page, 11)
    names = [[name for name, *_ in level] for level in Graph(page, 2).boxes()]
    expect("the graph after a click on what is narrower than a pixel", names, [["thread 1"], ["far"], ["near"]])


def try_graphs(driver, program, folder):
    page = typed_page(driver, program, folder)
    for check in [check_graph, check_marks, check_marks_in_zoom]:
        check(page)
    page.expect_silence()
