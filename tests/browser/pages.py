"""A browser without a window, a page of the program that it has open, and a flame graph of the page."""
import json
import subprocess
import sys
import tempfile

from selenium import webdriver
from selenium.webdriver.common.action_chains import ActionChains
from selenium.webdriver.common.actions.wheel_input import ScrollOrigin
from selenium.webdriver.common.by import By
from selenium.webdriver.common.keys import Keys
from selenium.webdriver.support.ui import Select, WebDriverWait

LEVEL = 20  # pixels of a level of a flame graph
PATIENCE = 60  # seconds in which the browser does what a page asked of it for its next turn
WIDTH = 1200  # pixels
DRAWN = "new Promise(done => requestAnimationFrame(() => requestAnimationFrame(done)))"

COLORS = """
    const [canvas, points] = arguments;
    const copy = document.createElement("canvas");
    Object.assign(copy, { width: canvas.width, height: canvas.height });
    const ink = copy.getContext("2d", { willReadFrequently: true });
    ink.drawImage(canvas, 0, 0);
    return points.map(([x, y]) => [...ink.getImageData(x, y, 1, 1).data]);
"""


SHOW_ALL = """
    const focused = document.activeElement;
    const hasMore = (more) => !more.hidden;
    for (const more of document.querySelectorAll(`${arguments[0]} .table > .more`)) while (hasMore(more)) more.click();
    focused.focus({ preventScroll: true });
"""
INTO_VIEW = """
    const [canvas, below] = arguments;
    const at = canvas.getBoundingClientRect().top + below;
    if (at < 0 || at > innerHeight) canvas.scrollIntoView({ block: "center" });
"""


def fail(what):
    sys.exit(f"page: {what}")


def expect(what, seen, wanted):
    if seen != wanted:
        fail(f"{what}: {seen!r}, and not {wanted!r}")


def browser():
    options = webdriver.ChromeOptions()
    for word in ["--headless=new", "--no-sandbox", "--disable-dev-shm-usage", "--hide-scrollbars", "--disable-background-networking"]:
        options.add_argument(word)
    options.set_capability("goog:loggingPrefs", {"browser": "ALL", "performance": "ALL"})
    driver = webdriver.Chrome(options=options)
    resize(driver, WIDTH)
    driver.implicitly_wait(PATIENCE)  # An opened graph is made in the browser's next turn.
    return driver


def resize(driver, width):
    size = {"width": width, "height": 900, "deviceScaleFactor": 1, "mobile": False}
    driver.execute_cdp_cmd("Emulation.setDeviceMetricsOverride", size)


class Page:
    """A page that the browser has open."""

    def __init__(self, driver, program, words, status=0, folder=None):
        """The page of the program, which is run in the folder."""
        file = tempfile.NamedTemporaryFile(suffix=".html")
        ended = subprocess.run([program, "--page", *words], stdin=subprocess.DEVNULL, stdout=file, cwd=folder)
        expect(f"the status of a page of {words}", ended.returncode, status)
        self.take(driver, file)

    def take(self, driver, file):
        self.driver, self.file, self.url = driver, file, f"file://{file.name}"
        self.open()

    def source(self):
        with open(self.file.name, encoding="utf-8", newline="") as file:
            return file.read()

    def open(self, fragment=""):
        """Opens the page anew, with this behind its address."""
        self.driver.get("about:blank")
        self.driver.get_log("performance")
        self.driver.get(self.url + fragment)
        expect("a page that isn't ready", self.run("return document.querySelector('main').ariaBusy"), "false")

    def fragment(self):
        address = self.run("return location.href")
        expect("the address without its fragment", address[: len(self.url)], self.url)
        return address[len(self.url) :]

    def run(self, script, *values):
        return self.driver.execute_script(script, *values)

    def wait(self):
        """Until what was done is drawn."""
        self.run(f"return {DRAWN}")

    def resize(self, width=WIDTH):
        resize(self.driver, width)

    def element(self, selector):
        return self.driver.find_element(By.CSS_SELECTOR, selector)

    def text(self, selector):
        return self.element(selector).get_property("innerText").strip()

    def click(self, selector):
        self.element(selector).click()

    def press(self, *keys):
        for key in keys:
            ActionChains(self.driver).send_keys(key).perform()

    def shown_rows(self, table):
        script = "return [...document.querySelectorAll(arguments[0] + ' tbody tr')].map(r => [...r.cells].map(c => c.innerText.trim()))"
        return self.run(script, table)

    def rows(self, table):
        """All rows that it is narrowed to, also those that aren't shown at first; the focus stays."""
        self.run(SHOW_ALL, table)
        return self.shown_rows(table)

    def titles(self, table):
        return self.run("return [...document.querySelectorAll(arguments[0] + ' th')].map(head => head.innerText.trim())", table)

    def write(self, words):
        self.element("#words").send_keys(Keys.CONTROL, "a")
        self.element("#words").send_keys(words or Keys.DELETE)

    def choose(self, choice, text):
        Select(self.element(f"#{choice}")).select_by_visible_text(text)

    def expect_silence(self):
        """Nothing was fetched but the page, and nothing was said on the console."""
        expect("messages on the console", self.driver.get_log("browser"), [])
        events = [json.loads(entry["message"])["message"] for entry in self.driver.get_log("performance")]
        fetched = [event["params"]["request"]["url"] for event in events if event["method"] == "Network.requestWillBeSent"]
        expect("what the browser fetched", fetched, [self.url])
        expect("what the page fetched", self.run("return performance.getEntriesByType('resource').length"), 0)


class MadePage(Page):
    """A page of another text than the program's."""

    def __init__(self, driver, text):
        file = tempfile.NamedTemporaryFile(suffix=".html")
        file.write(text.encode())
        file.flush()
        self.take(driver, file)


class Graph:
    """The flame graph of a thread, by the thread's place in the report, from 0."""

    def __init__(self, page, place):
        self.page, self.section = page, f"#thread-{place}"
        if not page.element(self.section).get_property("open"):
            page.click(f"{self.section} > summary")
        self.canvas = page.element(f"{self.section} canvas")
        # Its boxes are laid out once the browser knows how wide it is, which is a turn after it was made.
        WebDriverWait(page.driver, PATIENCE).until(lambda _: page.run("return Boolean(arguments[0].boxes)", self.canvas))

    def text(self, selector):
        return self.page.text(f"{self.section} {selector}")

    def click(self, selector):
        self.page.click(f"{self.section} {selector}")

    def boxes(self):
        """The boxes, level by level: names, where they begin, how wide they are, and the times of their frames."""
        script = "return arguments[0].boxes.map(l => l.map(({frame, x, width}) => [frame.name, x, width, String(frame.total)]))"
        return self.page.run(script, self.canvas)

    def width(self):
        return self.page.run("return arguments[0].clientWidth", self.canvas)

    def expect(self, what, whole, levels):
        """The boxes are those of levels of names, where they begin and how long they are, of a whole that is so long."""
        scale = self.width() / whole
        seen = [[(name, round(x / scale, 3), round(width / scale, 3)) for name, x, width, _ in level] for level in self.boxes()]
        expect(what, seen, [[(name, float(start), float(length)) for name, start, length in level] for level in levels])
        for at, level in enumerate(levels):
            points = [(number + 0.5) * whole / 40 for number in range(40)]
            painted = [color[3] > 0 for color in self.colors_at([(point * scale, LEVEL * at + 15) for point in points])]
            lying = [any(start <= point < start + length for _, start, length in level) for point in points]
            expect(f"{what}, what is painted of level {at}", painted, lying)

    def colors_at(self, points):
        """What is painted at points, read from a copy."""
        return self.page.run(COLORS, self.canvas, points)

    def pointer(self, x, level):
        """The pointer moved to a part of the width of a level."""
        self.page.run(INTO_VIEW, self.canvas, LEVEL * (level + 0.5))
        size = self.canvas.size
        x, y = x * size["width"] - size["width"] / 2, LEVEL * (level + 0.5) - size["height"] / 2
        return ActionChains(self.page.driver).move_to_element_with_offset(self.canvas, int(x), int(y))
