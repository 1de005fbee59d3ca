"""How a page is made of its data: the fixed texts of span_page, and the only text that stands for a value between them."""
import json
import os
import re

FIXED = os.path.join(os.path.dirname(os.path.abspath(__file__)), "..", "crates", "span_page", "src", "fixed.rt")
DATA_START = '<script type="application/json" id="data">'
# What stands in the data as an escape alone.
ESCAPED = "<>&\u2028\u2029"


def fixed_texts():
    """The fixed texts that the crate has, before the data and behind them."""
    with open(FIXED, encoding="utf-8") as file:
        texts = re.findall(r'const (BEFORE|BEHIND): &str = r(#+)"(.*?)"\2;', file.read(), re.DOTALL)
    if [name for name, _, _ in texts] != ["BEFORE", "BEHIND"] or not texts[0][2].endswith(DATA_START):
        raise ValueError(f"{FIXED} has no two fixed texts")
    return [text for _, _, text in texts]


def data_text(value):
    """The value as it stands in a page: no blanks, and escapes where markup could be meant."""
    text = json.dumps(value, ensure_ascii=False, separators=(",", ":"))
    return "".join(f"\\u{ord(letter):04x}" if letter in ESCAPED else letter for letter in text)


def page_text(value):
    before, behind = fixed_texts()
    return before + data_text(value) + behind


def data_of(page):
    """The value of the data between the fixed texts."""
    before, behind = fixed_texts()
    if not (page.startswith(before) and page.endswith(behind)):
        raise ValueError("a page doesn't begin and end with the fixed texts")
    return json.loads(page[len(before) : len(page) - len(behind)])
