"""How a page looks: light and dark, on a phone, on a tablet and in print."""
from pages import LEVEL, Graph, expect, fail
from typed import typed_page
from views import FIRST_ROWS, check_narrow, others


def luminance(color):
    parts = [part / 3294.6 if part <= 10 else ((part / 255 + 0.055) / 1.055) ** 2.4 for part in color]
    return 0.2126 * parts[0] + 0.7152 * parts[1] + 0.0722 * parts[2]


def contrast(*colors):
    dark, light = sorted(map(luminance, colors))
    return (light + 0.05) / (dark + 0.05)


def check_light_and_dark(page):
    """Light and dark: the ground is so, and texts stand out from what they stand on."""
    graph = Graph(page, 0)
    color = "return getComputedStyle(document.querySelector(arguments[0]))[arguments[1]].match(/[0-9.]+/g).map(Number)"
    for scheme, is_dark in [("light", False), ("dark", True)]:
        page.driver.execute_cdp_cmd("Emulation.setEmulatedMedia", {"features": [{"name": "prefers-color-scheme", "value": scheme}]})
        page.wait()
        ground = page.run(color, "body", "backgroundColor")
        expect(f"whether the ground is dark in {scheme}", luminance(ground) < 0.1, is_dark)
        boxes = graph.colors_at([(x + width / 2, LEVEL * at + 3) for at, level in enumerate(graph.boxes()) for _, x, width, _ in level])
        text = page.run(color, "body", "color")
        pairs = [(text, ground), *((text, box[:3]) for box in boxes), (text, page.run(color, ".warning", "backgroundColor"))]
        pairs += [(page.run(color, selector, "color"), ground) for selector in [".status", "button.name", "#counts", ".hint"]]
        least = min(contrast(*pair) for pair in pairs)
        if least < 4.5:
            fail(f"a text stands out {least:.2f} to 1 in {scheme}")


def try_looks(driver, program, folder):
    page = typed_page(driver, program, folder)
    check_light_and_dark(page)
    tables = others(page)
    Graph(page, 0).click(".under > summary")
    Graph(page, 1)
    Graph(page, 2)
    check_narrow(page, FIRST_ROWS + len(tables) + 2)  # of names, of what else was traced, and of what lies directly under a thread
    page.expect_silence()
