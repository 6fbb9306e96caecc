"""Measures the page over 1,048,576 rows with six charts: the milliseconds from a click to the numbers on the page, and the server's memory.

    python3 -m tests.page.measure
"""
import random
import statistics
import time

from tests.page import browser
from tests.page.server import Server
from tests.running import Folder

ROWS = 1 << 20
COLUMNS = {"kind": 12, "owner": 100, "year": 36, "place": 2606, "part": 6}  # and the number of their values
CLICKS = 30
# From a press to the frame after the numbers of the choice are there.
CLICK = """new Promise(done => {
    let began;
    addEventListener("pointerdown", () => { began = performance.now(); }, {once: true, capture: true});
    new MutationObserver((_, observer) => {
        observer.disconnect();
        requestAnimationFrame(() => setTimeout(() => done(performance.now() - began)));
    }).observe(document.querySelector("#selected"), {childList: true});
    document.querySelector(%s).dispatchEvent(new PointerEvent("pointerdown", {bubbles: true}));
    document.querySelector(%s).click();
})"""


def folder():
    """A folder with the table and its book."""
    chance = random.Random(1)
    lines = ["id,size," + ",".join(COLUMNS)]
    for number in range(ROWS):
        values = [int(min(many - 1, chance.expovariate(4 / many))) for many in COLUMNS.values()]
        lines.append(f"{number},{int(chance.expovariate(1 / 2000))},kind {values[0]},o{values[1]:03},{1990 + values[2]},place {values[3]:04} of a long name,"
                     f"{'abcdef'[values[4]]}")
    views = [f"by_{name}" for name in (*COLUMNS, "size")]
    book = 'table files from "files.csv" (id int, size int, kind text, owner text, year int, place text, part text)\n'
    book += "".join(f"view by_{name} = scan files | group {name} {{n = count, bytes = sum size}}\n" for name in COLUMNS)
    book += "view by_size = scan files | project bin(size, 500) as sizes, size | group sizes {n = count, bytes = sum size}\n"
    book += "".join(f"link {view} on files to {', '.join(other for other in views if other != view)}\n" for view in views)
    return Folder(book_smk=book, files_csv="\n".join(lines) + "\n")


def memory(process):
    """The most megabytes that a process had."""
    with open(f"/proc/{process}/status", encoding="ascii") as file:
        return next(int(line.split()[1]) for line in file if line.startswith("VmHWM")) / 1024


def main():
    chromium = browser.need()
    try:
        with folder() as made, Server("book.smk", folder=made.path) as server:
            began = time.monotonic()
            server.ask("/start")
            print(f"started in {time.monotonic() - began:.1f} s")
            tab = browser.Tab(chromium, server.url)
            chance, took = random.Random(2), []
            for _ in range(CLICKS):
                bars = tab.value("[...document.querySelectorAll('.bars [data-mark]')].map(bar => [bar.closest('[data-view]').dataset.view, bar.dataset.mark])")
                view, mark = chance.choice(bars)
                selector = repr(f"[data-view={view}] [data-mark='{mark}'] .bar").replace('\\"', '"')
                took.append(tab.value(CLICK % (selector, selector)))
                tab.settle()
            print(f"from a click to the page: {statistics.median(took):.0f} ms in the middle of {CLICKS}, {min(took):.0f} to {max(took):.0f}")
            engine, = server.engine
            print(f"memory at most: server {memory(server.process.pid):.0f} MB, program {memory(engine):.0f} MB")
    finally:
        chromium.close()


if __name__ == "__main__":
    main()
