"""Takes the pictures of the page into docs/, in a headless Chromium: of the bikes, of a CSV file that is named, and of a phone.

    python3 -m tests.page.pictures [FILE.csv]
"""
import sys

from smoke import program
from tests.page import browser
from tests.page.server import Server

DOCS = program.TOP / "docs"


def bikes(chromium, name, **more):
    """The weekend, and the records of one hour of it."""
    with Server() as server:
        server.ask("/start")
        tab = browser.Tab(chromium, server.url, **more)
        for mark in (5, 6):
            tab.click(f"[data-view=by_day] [data-mark='{mark}'] input")
        if not more.get("phone"):
            tab.point("[data-view=by_hour] [data-mark='14']")
            tab.click("[data-view=by_hour] .records")
        tab.value("scrollTo(0, 0)")
        tab.picture(DOCS / name)


def any_file(chromium, path):
    """The second largest bars of the first two lists, and the histograms by logarithms."""
    with Server(path) as server:
        server.ask("/start")
        tab = browser.Tab(chromium, server.url)
        for place in range(min(2, tab.value("document.querySelectorAll('.bars').length"))):
            view = tab.value(f"document.querySelectorAll('.bars')[{place}].closest('[data-view]').dataset.view")
            tab.click(f"[data-view={view}] .bars li:nth-child(2) .bar")
        tab.value("""(document.querySelectorAll(".log").forEach(log => log.click()), document.activeElement.blur(), scrollTo(0, 0))""")
        tab.mouse("mouseMoved", 5, 400)
        tab.picture(DOCS / "page-csv.png")


def main(files):
    chromium = browser.need()
    try:
        bikes(chromium, "page.png")
        bikes(chromium, "page-phone.png", width=390, height=844, phone=True)
        for path in files:
            any_file(chromium, path)
    finally:
        chromium.close()


if __name__ == "__main__":
    main(sys.argv[1:])
