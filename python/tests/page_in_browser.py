#!/usr/bin/env python3
"""Measure the page of `mpslp-tools report`, and the index of pages, in Chromium: python3 page_in_browser.py

At each of the usual widths of windows, on light and dark screens and on paper: no element is wider than the page, no
text leaves its cell, a table that scrolls shows so, the width of the window is used, tables of two files have columns
of the same widths, and text can be read on its background. --pictures DIR writes what is seen. --wrong makes the style
wrong in several ways, each of which has to be found.

It needs Chromium (Debian's package chromium), and is skipped if that is missing.
"""

import argparse
import sys
import tempfile
from pathlib import Path

from browser import Browser, is_installed
from mpslp import _main
from report_pages import SAMPLE
from repository import EXAMPLES


WIDTHS = (360, 400, 800, 1200)
PAPER = 718
"""The pixels between the margins of a sheet of A4."""
WAYS = (*((width, "screen", is_dark) for width in WIDTHS for is_dark in (False, True)), (PAPER, "print", False))
"""The width, the medium, and whether it is dark."""
LEAST_CONTRAST = 4.5
"""What the guidelines for web content (WCAG) ask for."""

WRONG_STYLES = (
    ("overflow-x: auto; ", ""),
    ("linear-gradient(to left, var(--shade), transparent) right", "none right"),
    (" max-width: calc(100vw - 2 * var(--side));", ""),
    ("max-width: 75rem", "max-width: 50rem"),
    ("table-layout: fixed; ", ""),
    (" overflow-wrap: anywhere; }", " }"),
    ("--ink: #e3e7eb", "--ink: #444"),
    ("--paper: #15191e", "--paper: #fff"),
    ("col.exact { width: 10rem; }", "col.exact { width: 30rem; }"),
    ("svg { display: block; max-width: 100%", "svg { display: block"),
    ("  table { table-layout: auto; }\n", "  table { min-width: 60rem; }\n"),
    ("minmax(min(100%, 34rem), 1fr)", "minmax(34rem, 1fr)"),
)
"""Pieces of the style, and what is there in a wrong one."""

MEASURES = """
(() => {
    const wrong = [], most = document.scrollingElement.clientWidth + 0.5;
    const start = e => JSON.stringify(e.textContent.slice(0, 40));
    const report = (e, what) => wrong.push(`${what}: ${e.tagName} ${e.className.baseVal ?? e.className} ${start(e)}`);
    const scrolls = e => e.scrollWidth > e.clientWidth && getComputedStyle(e).overflowX == "auto";
    const luminance = color => color.match(/[\\d.]+/g).slice(0, 3).map(each => each / 255)
        .map(each => each <= 0.04045 ? each / 12.92 : ((each + 0.055) / 1.055) ** 2.4)
        .reduce((sum, each, place) => sum + each * [0.2126, 0.7152, 0.0722][place], 0);
    const contrast = (one, other) => (Math.max(one, other) + 0.05) / (Math.min(one, other) + 0.05);
    const paper = luminance(getComputedStyle(document.body).backgroundColor);
    if (document.scrollingElement.scrollWidth > most) wrong.push("the page scrolls to the side");
    for (const e of document.body.querySelectorAll("*")) {
        const box = e.getBoundingClientRect(), style = getComputedStyle(e), scroller = e.parentElement.closest(".wide");
        const is_free = !(scroller && scrolls(scroller)) || e.tagName == "CAPTION";
        if (is_free && box.width && (box.right > most || box.left < -0.5)) report(e, "wider than the page");
        if (["TH", "TD", "CAPTION"].includes(e.tagName) && e.scrollWidth > e.clientWidth + 1)
            report(e, "its text leaves it");
        if (scrolls(e) && (style.backgroundImage.match(/gradient/g) ?? []).length < 4) report(e, "scrolls, no shadow");
        if ([...e.childNodes].some(each => each.nodeType == 3 && each.data.trim()) && !e.closest("svg"))
            if (contrast(paper, luminance(style.color)) < LEAST_CONTRAST) report(e, "hard to read");
    }
    const tables = [...document.querySelectorAll("table")], widths = new Map();
    for (const e of tables) {
        const kind = `${e.querySelector("thead").textContent} ${e.offsetWidth}`;
        const found = [...e.querySelectorAll("thead th")].map(each => Math.round(each.offsetWidth)).join(" ");
        if (widths.has(kind) && widths.get(kind) != found && !PRINTED) report(e, "columns of other widths");
        widths.set(kind, found);
    }
    const scrolling = [...document.querySelectorAll(".wide")].filter(scrolls).length;
    const used = Math.max(...tables.map(e => e.getBoundingClientRect().right));
    return {wrong, scrolling, used, is_dark: paper < 0.2};
})()
"""


def pages(directory):
    """Pages of each sort, by their names."""
    long = "long_" * 51
    a, b = (f"{long[:250]}{letter}" for letter in "ab")
    texts = {
        "sample.mps": SAMPLE,
        f"{'name_of_a_file_' * 12}.lp": f"max {a} + 3 {b}\nst\n {long}: {a} + {b} <= 1234567.123456789123456789\nend\n",
        "large.lp": _large(),
        "broken.lp": "max x\nst\n c: x + y 4\nend\n",
    }
    models = directory / "models"
    models.mkdir()
    for name, text in texts.items():
        (models / name).write_text(text)
    small = EXAMPLES / "semi.mps"
    _report("--out-dir", directory / "pages", models, small)
    for name, files in (("two", (models / "sample.mps", small)), ("same", (small, EXAMPLES / "semi.lp"))):
        _report("-o", directory / "pages" / f"{name}.html", *files)
    return sorted((directory / "pages").glob("*.html"))


def _report(*words):
    _main.main(["report", "-q", *map(str, words)])


def _large():
    """More rows than are shown as formulas, and more places than are drawn one by one."""
    rows = [
        f" r{i}: {' + '.join(f'{1 + (i * j) % 9} x{(7 * i + 13 * j) % 300}' for j in range(1, 9))} <= {10 ** (i % 12)}"
        for i in range(400)
    ]
    return "\n".join(["min x0", "st", *rows, "end", ""])


def measured(browser, page, width, media, is_dark):
    browser.open(page, width, media, is_dark)
    values = {"LEAST_CONTRAST": str(LEAST_CONTRAST), "PRINTED": str(media == "print").lower()}
    script = MEASURES
    for name, value in values.items():
        script = script.replace(name, value)
    return browser.value(script)


def faults(found, width, media, is_dark):
    """What is wrong with a page."""
    yield from found["wrong"]
    if found["is_dark"] != is_dark:
        yield f"the paper is {'dark' if found['is_dark'] else 'light'}"
    if media == "print" and found["scrolling"]:
        yield "tables scroll on paper"
    if media == "screen" and width == WIDTHS[-1]:
        if found["scrolling"]:
            yield "tables scroll in a wide window"
        if found["used"] < 0.95 * width:
            yield f"only {found['used']:.0f} of {width} pixels are used"


def faults_of_pages(browser, found, pictures=None):
    """What is wrong with pages, after which page it is and how it is looked at."""
    for page in found:
        for width, media, is_dark in WAYS:
            name = f"{page.stem[:30]}-{width}-{'dark' if is_dark else media}"
            for each in faults(measured(browser, page, width, media, is_dark), width, media, is_dark):
                yield f"{name}: {each}"
            if pictures is not None:
                browser.picture(pictures / f"{name}.png")


def wrong_styles_not_found(browser, found):
    """The wrong styles with which nothing is wrong with the pages."""
    texts = {page: page.read_text() for page in found}
    for right, wrong in WRONG_STYLES:
        for page, text in texts.items():
            if right not in text:
                raise ValueError(f"the style has no {right!r}")
            page.write_text(text.replace(right, wrong))
        if next(faults_of_pages(browser, found), None) is None:
            yield f"not found: {right!r} is {wrong!r}"


def main():
    parser = argparse.ArgumentParser(description=__doc__, formatter_class=argparse.RawDescriptionHelpFormatter)
    parser.add_argument("--pictures", type=Path, metavar="DIR", help="write a picture of each page in each way")
    parser.add_argument("--wrong", action="store_true", help="try wrong styles too")
    options = parser.parse_args()
    if not is_installed():
        print("skipped: pages in a browser (chromium is missing: apt-get install chromium)")
        return 0
    if options.pictures is not None:
        options.pictures.mkdir(parents=True, exist_ok=True)
    with tempfile.TemporaryDirectory() as directory, Browser() as browser:
        found = pages(Path(directory))
        wrong = list(faults_of_pages(browser, found, options.pictures))
        if options.wrong:
            wrong += wrong_styles_not_found(browser, found)
    print(*wrong, f"{len(found)} pages in {len(WAYS)} ways, {len(wrong)} faults", sep="\n")
    return 1 if wrong else 0


if __name__ == "__main__":
    sys.exit(main())
