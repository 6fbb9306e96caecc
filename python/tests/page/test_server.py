"""The server of the page: what it must refuse, and that what it says is what the engine says to the same question."""
import concurrent.futures
import contextlib
import csv
import http.client
import io
import json
import os
import random
import signal
import socket
import subprocess
import sys
import threading
import time
import unittest
import urllib.parse

from smoke import connect, program
from tests.page import books
from tests.page.server import LIMIT, Server
from tests.running import Folder, need

BIKES = program.TOP / "examples/bikes"


def setUpModule():
    need("smoke_live")


def form(question):
    return "question=" + urllib.parse.quote_plus(json.dumps(question))


FORM = {"Content_Type": "application/x-www-form-urlencoded"}


class Security(unittest.TestCase):
    @classmethod
    def setUpClass(cls):
        cls.server = Server(str(BIKES / "book.smk"))
        cls.addClassCleanup(cls.server.close)
        cls.told = cls.server.ask("/start")[1]
        cls.data = cls.told["data"]

    def asked(self, path, **question):
        return self.server.ask(path, data=self.data, **question)

    def test_only_this_machine_hears(self):
        for address in ("127.0.0.2", "::1"):
            with self.assertRaises(OSError):
                http.client.HTTPConnection(address, self.server.port, timeout=LIMIT).connect()

    def test_hosts_and_origins(self):
        own, body = f"127.0.0.1:{self.server.port}", json.dumps({})
        for headers, status in [
            ({}, 200), ({"Host": f"localhost:{self.server.port}"}, 200), ({"Origin": f"http://{own}"}, 200), ({"Host": "127.0.0.1"}, 403),
            ({"Host": f"bikes.example:{self.server.port}"}, 403), ({"Host": ""}, 403), ({"Host": f"127.0.0.1:{self.server.port}.example"}, 403),
            ({"Host": f"127.0.0.1.example:{self.server.port}"}, 403), ({"Origin": "http://bikes.example"}, 403), ({"Origin": "null"}, 403),
            ({"Origin": ""}, 403), ({"Origin": "http://127.0.0.1:1"}, 403), ({"Origin": f"http://localhost:{self.server.port}"}, 403),
            ({"Origin": f"http://{own}.example"}, 403), ({"Origin": f"http://{own}@example"}, 403),
        ]:
            for method, path in (("GET", "/"), ("POST", "/start"), ("POST", "/waiting")):
                with self.subTest(headers=headers, path=path):
                    self.assertEqual(self.server.send(method, path, body, **headers)[0], status)
        for site, status in (("cross-site", 403), ("same-site", 403), ("same-origin", 200)):
            self.assertEqual(self.server.send("POST", "/start", body, Sec_Fetch_Site=site)[0], status)

    def test_two_hosts_in_one_request(self):
        with socket.create_connection(("127.0.0.1", self.server.port), LIMIT) as connection:
            connection.sendall(f"GET / HTTP/1.1\r\nHost: 127.0.0.1:{self.server.port}\r\nHost: bikes.example\r\n\r\n".encode())
            self.assertIn(b" 403 ", connection.recv(1 << 16).split(b"\r\n")[0])

    def test_allowed_hosts(self):
        with Server("--host", "charts.example", str(BIKES / "book.smk")) as server:
            server.ask("/start")
            for headers, status in [
                ({"Host": "charts.example"}, 200), ({"Host": "Charts.Example:9000"}, 200), ({"Host": "charts.example:"}, 403),
                ({"Host": "charts.example.org"}, 403), ({"Host": "a.charts.example"}, 403), ({"Host": f"localhost:{server.port}"}, 200),
                ({"Host": "charts.example", "Origin": "https://charts.example"}, 200), ({"Host": "charts.example", "Origin": "http://charts.example:1"}, 403),
                ({"Host": "charts.example:9000", "Origin": "http://charts.example:9000"}, 200),
            ]:
                with self.subTest(headers=headers):
                    self.assertEqual(server.send("POST", "/start", "{}", **headers)[0], status)

    def test_files_and_methods(self):
        for method, path in [("GET", "/server.py"), ("GET", "/../server.py"), ("GET", "/static/page.js"), ("GET", "/page.js?"), ("GET", "/charts"),
                             ("GET", "/page.html"), ("POST", "/"), ("POST", "/none"), ("POST", "/page.js")]:
            with self.subTest(path=path):
                self.assertEqual(self.server.send(method, path, "{}")[0], 404)
        for method in ("PUT", "DELETE", "OPTIONS", "HEAD"):
            self.assertEqual(self.server.send(method, "/start", "{}")[0], 501)

    def test_headers(self):
        for path in ("/", "/page.js", "/page.css"):
            status, headers, body = self.server.send("GET", path)
            self.assertEqual(status, 200)
            self.assertEqual(headers["X-Content-Type-Options"], "nosniff")
            policy = dict(part.strip().split(" ", 1) for part in headers["Content-Security-Policy"].split(";"))
            self.assertEqual({name: policy.get(name) for name in ("default-src", "script-src", "style-src", "connect-src", "frame-ancestors", "base-uri")},
                             {"default-src": "'none'", "script-src": "'self'", "style-src": "'self'", "connect-src": "'self'", "frame-ancestors": "'none'",
                              "base-uri": "'none'"})
            self.assertNotIn("unsafe", headers["Content-Security-Policy"])
        page = self.server.send("GET", "/")[2].decode()
        self.assertEqual(page.count("<script"), 1)
        self.assertNotRegex(page, r"\son\w+=|style=|javascript:|https?:")

    def test_no_name_is_in_the_page(self):
        """The page's code has no name of a chart, a table or a column."""
        with connect(BIKES / "book.smk", read_only=True) as session:
            names = {*session.schema.tables, *session.schema.views, "minutes", "station", "district", "rider", "bikes"} - {"long"}
        for path in sorted((program.TOP / "python/smoke/page").rglob("*")):
            if path.suffix in (".js", ".html", ".css") or path.suffix == ".py" and path.name != "command.py":
                text = path.read_text(encoding="utf-8")
                for name in names:
                    self.assertNotIn(name, text, path.name)

    def test_questions_that_are_none(self):
        for body, status in [("", 400), ("{", 400), ("5", 400), ("[5]", 400), ('"a"', 400), ("null", 400), ("[" * 20000, 400), ("9" * 60000, 400),
                             ("\udcff", 400), ("{}", 409), ('{"data": 5}', 409)]:
            with self.subTest(body=body[:20]):
                self.assertEqual(self.server.send("POST", "/charts", body.encode("utf-8", "surrogateescape"))[0], status)

    def test_a_question_is_bounded_by_the_bars(self):
        bars = sum(chart["rows"] for chart in self.told["charts"])
        bound = (1 << 16) + 12 * bars
        fits = json.dumps({"data": self.data, "brushes": {}, "charts": {}}).ljust(bound)
        self.assertEqual(self.server.send("POST", "/charts", fits)[0], 200)
        self.assertEqual(self.server.send("POST", "/charts", fits + " ")[0], 413)
        for headers in ({"Content_Length": "-1"}, {"Content_Length": "1e3"}, {"Content_Length": "9" * 12}, {"Transfer_Encoding": "chunked"}):
            with self.subTest(headers=headers):
                self.assertEqual(self.server.send("POST", "/charts", **headers)[0], 413)

    def test_bars_that_are_none(self):
        for brushes, status in [
            ({"by_day": [5]}, 200), ({"by_day": [6, 0, 6]}, 200), ({"by_day": list(range(7))}, 200), ({"by_day": [7]}, 400), ({"by_day": [-1]}, 400),
            ({"by_day": []}, 400), ({"by_day": ["5"]}, 400), ({"by_day": [5.0]}, 400), ({"by_day": [True]}, 400), ({"by_day": [None]}, 400),
            ({"by_day": "5"}, 400), ({"by_day": [[5]]}, 400), ({"by_day": ["0 on rides\nshow long"]}, 400), ({"rides": [0]}, 400), ({"": [0]}, 400),
            ({"by_day 0 on rides\nshow by_day": [0]}, 400), ({"by_day": [10**30]}, 400), ([], 400), (None, 400), ("by_day", 400),
        ]:
            with self.subTest(brushes=brushes):
                self.assertEqual(self.asked("/charts", brushes=brushes, charts={})[0], status)
                self.assertEqual(self.asked("/records", brushes=brushes, of={"table": "rides"})[0], status)

    def test_wishes_that_are_none(self):
        for wish in ({"measure": -1}, {"measure": "0"}, {"measure": 99}, {"order": "rows"}, {"order": []}, {"shown": 1001}, {"shown": None}, {"begin": -1},
                     {"find": 5}, {"find": "x" * 201}, [], "size", None):
            with self.subTest(wish=wish):
                self.assertEqual(self.asked("/charts", brushes={}, charts={"by_day": wish})[0], 400)
        self.assertEqual(self.asked("/charts", brushes={}, charts={"nothing": {}})[1]["charts"], [])

    def test_records_that_are_none(self):
        for of in ({}, {"table": "none"}, {"table": ["rides"]}, {"table": "rides", "view": "none", "mark": 0}, {"table": "stations", "view": "by_day", "mark": 0},
                   {"table": "rides", "view": "by_day"}, {"table": "rides", "view": "by_day", "mark": 7}, {"table": "rides", "view": "by_day", "mark": True},
                   {"table": "rides\nclear"}, {"table": "rides", "view": ["by_day"], "mark": 0}, "rides", None):
            with self.subTest(of=of):
                self.assertEqual(self.asked("/records", brushes={}, of=of)[0], 400)
        for more in ({"begin": -1}, {"begin": 1.5}, {"begin": 2**32}, {"steps": "where hour > 1\nclear"}, {"steps": 5}, {"steps": "where \ud800"}):
            with self.subTest(more=more):
                self.assertEqual(self.asked("/records", brushes={}, of={"table": "rides"}, **more)[0], 400)
        for question in ({"table": "none", "rid": 0}, {"table": "rides", "rid": 2000}, {"table": "rides", "rid": "0"}, {"table": ["rides"], "rid": 0}):
            self.assertEqual(self.asked("/bars", **question)[0], 400)
        for question in ({"view": "by_day"}, {"view": None}, {"view": ["by_day"]}):
            self.assertEqual(self.asked("/rules", **question)[0], 400)

    def test_steps_can_not_leave_their_line(self):
        """What isn't a step is a fault of it, and no line of its own."""
        for steps in ("# none", "clear", "where hour > 1 # none", "}", "| clear", "where hour > 1 | append rides \"rides.csv\"", ".schema", "\r", "\x00", "\x0b"):
            status, answer = self.asked("/records", brushes={}, of={"table": "rides"}, steps=steps)
            with self.subTest(steps=steps):
                self.assertIn((status, answer.get("kind")), [(409, "steps"), (200, None)])
                if status == 200:  # a comment, or blanks alone
                    self.assertIn(steps.strip()[:1], ("#", "", "w"))

    def test_a_form_is_read_as_a_question(self):
        question = {"data": self.data, "brushes": {}, "of": {"table": "rides"}, "steps": ""}
        status, headers, body = self.server.send("POST", "/csv", form(question), **FORM)
        self.assertEqual((status, headers["Content-Disposition"]), (200, 'attachment; filename="records.csv"'))
        self.assertEqual(body, (BIKES / "rides.csv").read_bytes())
        for wrong in ("question", "question=", "question={}&more", "other={}"):
            self.assertIn(self.server.send("POST", "/csv", wrong, **FORM)[0], (400, 409))
        self.assertEqual(self.server.send("POST", "/csv", form({**question, "of": {"table": "none"}}), **FORM)[0], 400)

    def test_many_pages_beside_a_silent_one(self):
        asked = [{"brushes": {"by_hour": [mark]}, "charts": {"by_day": {}}} for mark in range(15)] * 4
        with socket.create_connection(("127.0.0.1", self.server.port), LIMIT), concurrent.futures.ThreadPoolExecutor(4) as pages:
            answers = list(pages.map(lambda question: self.asked("/charts", **question), asked))
        for question, answer in zip(asked, answers):
            self.assertEqual(answer, self.asked("/charts", **question))


def brush(session, brushes):
    """Brings another session to the brushes of a page."""
    session.clear()
    for view, marks in brushes.items():
        for table in dict.fromkeys(link.table for link in session.schema.links if link.view == view):
            session.brush(view, marks, table)


class AsTheEngine(unittest.TestCase):
    """Over several books: charts, records, files and rules are what the engine says."""

    def compare(self, server, session, keys, rounds, chance):
        """`keys` are the number of columns that name a bar, by view."""
        told = server.ask("/start")[1]
        whole = {view: session.first(view) for view in keys}
        self.assertEqual({chart["view"]: chart["rows"] for chart in told["charts"]}, {view: whole[view].count for view in keys})
        for _ in range(rounds):
            brushes = {view: sorted(chance.sample(range(whole[view].count), min(whole[view].count, chance.choice((1, 2, 5, 60)))))
                       for view in keys if whole[view].count and chance.random() < 0.4}
            brush(session, brushes)
            wishes = {view: {"measure": 0, "order": chance.choice(("size", "name", "file")), "shown": 1000} for view in keys}
            status, answer = server.ask("/charts", data=told["data"], brushes=brushes, charts=wishes)
            self.assertEqual(status, 200)
            for said in answer["charts"]:
                self.compare_chart(said, whole, session.show(said["view"]), keys[said["view"]], brushes, session.schema.links)
            for table in session.schema.tables:
                self.assertEqual(answer["selected"][table], str(session.selected(table, part=(0, 0)).count))
                self.compare_records(server, told["data"], brushes, {"table": table}, session.selected(table))
            view = chance.choice([view for view in keys if whole[view].count] or [None])
            if view is not None:
                mark = chance.randrange(whole[view].count)
                table = next(link.table for link in session.schema.links if link.view == view)
                self.compare_records(server, told["data"], brushes, {"table": table, "view": view, "mark": mark}, session.back(view, mark, table, now=True))

    def compare_chart(self, said, whole, now, keys, brushes, links):
        view = said["view"]
        current = {row[:keys]: row for row in now.rows}
        self.assertEqual(said["now"], now.count)
        self.assertEqual(said["filtered"], any(link.view in brushes and view in link.to for link in links))
        for mark, label, number, number_now, is_there, *place in said["bars"]:
            row = whole[view].rows[mark]
            self.assertIn(place, ([], [str(row[0])]))  # in a histogram, its int
            self.assertEqual(label, [str(value) for value in row[:keys]])
            self.assertEqual(number, str(row[keys]))
            found = current.get(row[:keys])
            self.assertEqual((number_now, is_there), (None if found is None else str(found[keys]), found is not None) if said["filtered"] else (None, True))
        self.assertEqual(len({bar[0] for bar in said["bars"]}), len(said["bars"]))
        self.assertEqual(said["others"] + len(said["bars"]), whole[view].count)

    def compare_records(self, server, data, brushes, of, frame):
        question = {"data": data, "brushes": brushes, "of": of, "steps": ""}
        status, answer = server.ask("/records", **question)
        self.assertEqual((status, answer["count"], answer["columns"]), (200, str(frame.count), list(frame.columns)))
        self.assertEqual(answer["rows"], [[str(value) for value in row] for row in frame.rows[:100]])
        self.assertEqual(answer["places"], [str(place) for place in frame.places[:100]])
        begin = frame.count // 200 * 100
        later = server.ask("/records", **question, begin=begin)[1]
        self.assertEqual(later["rows"], [[str(value) for value in row] for row in frame.rows[begin:begin + 100]])
        status, _, body = server.send("POST", "/csv", form(question), **FORM)
        read = list(csv.reader(io.StringIO(body.decode("utf-8", "surrogateescape"), newline="")))
        self.assertEqual((status, read), (200, [list(frame.columns), *([str(value) for value in row] for row in frame.rows)]))

    def tried(self, book, files, keys, rounds=12):
        with Folder(book_smk=book, **files) as folder, Server("book.smk", folder=folder.path) as server, connect(f"{folder.path}/book.smk") as session:
            self.compare(server, session, keys, rounds, random.Random(67))

    def test_bikes(self):
        keys = {"by_day": 1, "by_hour": 1, "by_length": 1, "by_rider": 1, "by_district": 1}
        text = (BIKES / "book.smk").read_text()
        book = "".join(line for line in text.splitlines(True) if not line.startswith(("view long", "link long", "lineage back long")))
        book = book.replace("bin(minutes, 15)", "bin(minutes, 1)")
        files = {name: (BIKES / name.replace("_csv", ".csv")).read_bytes() for name in ("rides_csv", "stations_csv")}
        self.tried(book, files, keys)

    def test_many_bars(self):
        """Also where not each chart is linked with each other."""
        book = books.MANY_BOOK.split("view by_amount")[0] + """link by_place on rows to by_part, by_year
link by_part on rows to by_place, by_year, by_place_and_part
link by_year on rows to by_place, by_part
link by_place_and_part on rows to by_part
"""
        self.tried(book, {"rows_csv": books.many_rows(300)}, {"by_place": 1, "by_place_and_part": 2, "by_part": 1, "by_year": 1})

    def test_a_bar_of_two_tables(self):
        """A view that is linked on two tables is brushed on both."""
        book = """table sales from "sales.csv" (id int, region text, amount int)
table regions from "regions.csv" (name text, zone text)
view by_zone = scan sales | join scan regions on region = name | group zone {n = count, total = sum amount}
view by_region = scan sales | group region {n = count}
view by_name = scan regions | group name {n = count}
link by_zone on sales to by_region
link by_zone on regions to by_name
link by_region on sales to by_zone
link by_name on regions to by_zone
"""
        sales = books.table(["id", "region", "amount"], [[number, f"r{number * 5 % 7}", number] for number in range(50)])
        regions = books.table(["name", "zone"], [[f"r{number}", "ABC"[number % 3]] for number in range(7)])
        self.tried(book, {"sales_csv": sales, "regions_csv": regions}, {"by_zone": 1, "by_region": 1, "by_name": 1})

    def test_a_view_of_too_many_rows_is_no_chart(self):
        rows = [[number, number % 3] for number in range(100_001)]
        book = 'table t from "t.csv" (k int, v int)\nview each = scan t\nview g = scan t | group v {n = count}\nlink g on t to each\n'
        with Folder(book_smk=book, t_csv=books.table(["k", "v"], rows)) as folder, Server("book.smk", folder=folder.path) as server:
            told = server.ask("/start")[1]
            self.assertEqual(([chart["view"] for chart in told["charts"]], told["leftOut"]), (["g"], [{"view": "each", "rows": "100001"}]))
            answer = server.ask("/charts", data=told["data"], brushes={"g": [1]}, charts={"g": {}})[1]
            self.assertEqual(answer["selected"], {"t": "33334"})
            bars = server.ask("/bars", data=told["data"], table="t", rid=70_000)[1]["views"]
            self.assertEqual([view["bars"] for view in bars], [[[70_000, ["70000", "1"]]]])

    def test_hostile_texts(self):
        self.tried(books.TEXTS_BOOK.replace("fd one_kind on notes note to kind\n", ""), {"notes_csv": books.hostile_notes()},
                   {"by_note": 1, "by_kind": 1, "by_both": 2})

    def test_no_rows(self):
        self.tried(books.EMPTY_BOOK.replace("fd parts on rows id to part\n", ""), {"rows_csv": "id,part\n"}, {"by_part": 1, "by_id": 1}, 2)


class Rules(unittest.TestCase):
    def test_keys_that_break_a_rule(self):
        with Folder(book_smk=books.TEXTS_BOOK, notes_csv=books.hostile_notes()) as folder, Server("book.smk", folder=folder.path) as server, \
                connect(f"{folder.path}/book.smk") as session:
            told = server.ask("/start")[1]
            self.assertEqual(told["rules"], [{"view": "one_kind", "table": "notes", "keys": ["note"], "column": "kind"}])
            broken = session.fd("one_kind")
            self.assertEqual(len(broken), (len(books.HOSTILE) + 1) // 2)
            answer = server.ask("/rules", data=told["data"], view="one_kind", begin=0)[1]
            self.assertEqual(answer["count"], len(broken))
            counts = [int(key[2]) for key in answer["keys"]]
            self.assertEqual(counts, sorted(counts, reverse=True))
            for mark, label, count in answer["keys"]:
                self.assertEqual((label, int(count)), ([str(value) for value in session.first("one_kind").rows[mark]], broken[mark].count))
                rows = server.ask("/records", data=told["data"], brushes={}, of={"table": "notes", "view": "one_kind", "mark": mark})[1]
                self.assertEqual(rows["rows"], [[str(value) for value in row] for row in broken[mark].frame.rows])

    def test_most_first_and_by_pages(self):
        rows = [[key, value] for key in range(60) for value in range(2 + key % 7)]
        with Folder(book_smk='table t from "t.csv" (k int, v int)\nfd r on t k to v\n', t_csv=books.table(["k", "v"], rows)) as folder, \
                Server("book.smk", folder=folder.path) as server:
            data = server.ask("/start")[1]["data"]
            pages = [server.ask("/rules", data=data, view="r", begin=begin)[1]["keys"] for begin in (0, 20, 40, 60)]
            self.assertEqual([len(page) for page in pages], [20, 20, 20, 0])
            self.assertEqual([(int(label[0]), int(count)) for page in pages for _, label, count in page],
                             sorted(((key, 2 + key % 7) for key in range(60)), key=lambda one: (-one[1], one[0])))


class Asked(unittest.TestCase):
    @classmethod
    def setUpClass(cls):
        cls.server = Server(str(BIKES / "book.smk"))
        cls.addClassCleanup(cls.server.close)
        cls.data = cls.server.ask("/start")[1]["data"]
        cls.session = connect(BIKES / "book.smk", read_only=True)
        cls.addClassCleanup(cls.session.close)

    def asked(self, steps, brushes=None, **of):
        return self.server.ask("/records", data=self.data, brushes=brushes or {}, of={"table": "rides", **of}, steps=steps)

    def test_steps(self):
        steps = "where minutes > 30 | group station {n = count, long = max minutes}"
        self.session.clear()
        self.session.brush("by_day", [5], "rides")
        for given in (steps, f"  | {steps}  ", f"|{steps}"):
            status, answer = self.asked(given, {"by_day": [5]})
            frame = self.session.selected("rides", steps)
            self.assertEqual((status, answer["columns"], answer["count"], answer["places"]), (200, ["station", "n", "long"], str(frame.count), None))
            self.assertEqual(answer["rows"], [[str(value) for value in row] for row in frame.rows])
        answer = self.asked(steps, {"by_day": [5]}, view="by_rider", mark=1)[1]
        frame = self.session.ask("by_rider", 1, "rides", steps, now=True)
        self.assertEqual(answer["rows"], [[str(value) for value in row] for row in frame.rows])

    def test_the_example_of_each_table_can_be_asked(self):
        for table in self.server.ask("/start")[1]["tables"]:
            answer = self.server.ask("/records", data=self.data, brushes={}, of={"table": table["name"]}, steps=table["example"])
            self.assertEqual((answer[0], answer[1]["columns"][-1]), (200, "n"))

    def test_faults_at_their_place(self):
        for steps, at in [
            ("where minuts > 30", 6), ("  where minuts > 30", 8), ("| where minuts > 30", 8), ("where minutes >", 15), ("where minutes > 30 | join", 21),
            ("group station {n = sum day}", 23), ('where day = "é日👩" and minuts > 1', 23), ("where", 5), ("project nothing", 8),
        ]:
            for of in ({}, {"view": "by_day", "mark": 0}):
                with self.subTest(steps=steps, of=of):
                    status, answer = self.asked(steps, **of)
                    self.assertEqual((status, answer["kind"], answer["at"]), (409, "steps", at))
                    self.assertTrue(answer["said"].startswith(("refused steps: ", "line ")))
        self.assertIn("minutes", self.asked("where minuts > 30")[1]["hint"])

    def test_bars_of_a_record(self):
        for table, rid in (("rides", 0), ("rides", 1999), ("stations", 3)):
            answer = self.server.ask("/bars", data=self.data, table=table, rid=rid)[1]
            views = {link_to for link in self.session.schema.links if link.table == table for link_to in link.to}
            views |= {forward.view for forward in self.session.schema.fwds if forward.table == table}
            self.assertEqual({one["view"] for one in answer["views"]}, views)
            for one in answer["views"]:
                self.assertEqual([mark for mark, _ in one["bars"]], self.session.fwd(table, [rid], one["view"]))


class Shown(unittest.TestCase):
    """What `prepare` wrote beside a table's file is how its numbers are written."""

    def test_decimals_and_days(self):
        book = """table bills from "bills.csv" (id int, cents int, day int, what text)
view by_what = scan bills | group what {n = count, total = sum cents, most = max cents}
view by_cents = scan bills | project bin(cents, 1000) as tens | group tens {n = count}
view by_month = scan bills | project bin(day, 100) as month, cents | group month {total = sum cents}
view by_day = scan bills | group day {n = count}
link by_what on bills to by_cents, by_month, by_day
link by_cents on bills to by_what
"""
        notes = {"columns": {"cents": {"kind": "int", "scale": 2, "unit": "€"}, "day": {"kind": "int", "date": "day"}, "id": {"scale": "no"}, "what": 5}}
        rows = [[1, 12345, 20261031, "a"], [2, -5, 20261130, "a"], [3, 99, 20270101, "b"]]
        with Folder(book_smk=book, bills_csv=books.table(["id", "cents", "day", "what"], rows)) as folder:
            folder.write("bills.csv.json", json.dumps(notes))
            with Server("book.smk", folder=folder.path) as server:
                told = server.ask("/start")[1]
                data = told["data"]
                self.assertEqual([measure["unit"] for measure in told["charts"][0]["measures"]], ["", "€", "€"])
                wishes = {"by_what": {"measure": 1}, "by_cents": {}, "by_month": {}, "by_day": {}}
                charts = {said["view"]: said["bars"] for said in server.ask("/charts", data=data, brushes={}, charts=wishes)[1]["charts"]}
                self.assertEqual([bar[1:3] for bar in charts["by_what"]], [[["a"], "123.40"], [["b"], "0.99"]])
                self.assertEqual([bar[1][0] for bar in charts["by_cents"]], ["-10.00\u2013-0.01", "0.00\u20139.99", "120.00\u2013129.99"])
                self.assertEqual([bar[1:3] for bar in charts["by_month"]], [[["2026-10"], "123.45"], [["2026-11"], "-0.05"], [["2027-01"], "0.99"]])
                self.assertEqual([bar[1][0] for bar in charts["by_day"]], ["2026-10-31", "2026-11-30", "2027-01-01"])
                records = server.ask("/records", data=data, brushes={}, of={"table": "bills"})[1]["rows"]
                self.assertEqual(records, [["1", "123.45", "2026-10-31", "a"], ["2", "-0.05", "2026-11-30", "a"], ["3", "0.99", "2027-01-01", "b"]])
                steps = server.ask("/records", data=data, brushes={}, of={"table": "bills"}, steps="group what {n = count, total = sum cents}")[1]["rows"]
                self.assertEqual(steps, [["a", "2", "123.40"], ["b", "1", "0.99"]])

    def test_notes_that_can_not_be_read(self):
        for notes in ("", "[", "[]", '{"columns": []}', '{"columns": {"v": {"scale": -1}}}', '{"columns": {"v": {"scale": 1e9}}}', "[" * 9000):
            with Folder(book_smk='table t from "t.csv" (k text, v int)\nview g = scan t | group k {s = sum v}\n', t_csv="k,v\na,5\n") as folder:
                folder.write("t.csv.json", notes)
                with self.subTest(notes=notes[:40]), Server("book.smk", folder=folder.path) as server:
                    data = server.ask("/start")[1]["data"]
                    self.assertEqual(server.ask("/charts", data=data, brushes={}, charts={"g": {}})[1]["charts"][0]["bars"][0][2], "5")


class Ends(unittest.TestCase):
    def test_a_killed_program_is_started_again(self):
        with Server(str(BIKES / "book.smk")) as server:
            told = server.ask("/start")[1]
            question = {"data": told["data"], "brushes": {"by_day": [5], "by_hour": [3, 4]}, "charts": {"by_rider": {}, "by_day": {}}}
            before = server.ask("/charts", **question)[1]
            self.assertEqual(before["starts"], 1)
            for starts in (2, 3):
                engine, = server.engine
                os.kill(engine, signal.SIGKILL)
                self.assertEqual(server.ask("/charts", **question), (200, {**before, "starts": starts}))

    def test_it_is_started_again_within_an_answer(self):
        with Server(str(BIKES / "book.smk")) as server:
            told = server.ask("/start")[1]
            question = {"data": told["data"], "brushes": {}, "charts": {"by_rider": {}}}
            wanted = server.ask("/charts", **question)[1]["charts"]
            stop = threading.Event()

            def kill():
                while not stop.is_set():
                    for engine in server.engine:
                        with contextlib.suppress(ProcessLookupError):
                            os.kill(engine, signal.SIGKILL)
                    time.sleep(0.2)
            killer = threading.Thread(target=kill)
            killer.start()
            try:
                for _ in range(30):
                    status, answer = server.ask("/charts", **question)
                    self.assertIn(status, (200, 503))
                    self.assertEqual(answer["charts"] if status == 200 else wanted, wanted)
            finally:
                stop.set()
                killer.join()
            self.assertEqual(server.ask("/charts", **question)[1]["charts"], wanted)

    def test_other_data_is_said(self):
        with Folder(book_smk='table t from "t.csv" (k text)\nview g = scan t | group k {n = count}\nview h = scan t | group k {n = count}\n'
                             "link g on t to h\n", t_csv="k\na\nb\n") as folder, Server("book.smk", folder=folder.path) as server:
            told = server.ask("/start")[1]
            folder.write("t.csv", "k\nb\nc\n")
            os.kill(server.engine[0], signal.SIGKILL)
            status, answer = server.ask("/charts", data=told["data"], brushes={"g": [0]}, charts={"h": {}})
            self.assertEqual((status, answer["kind"]), (409, "changed"))
            again = server.ask("/start")[1]
            self.assertNotEqual(again["data"], told["data"])
            self.assertEqual(server.ask("/charts", data=again["data"], brushes={"g": [0]}, charts={"h": {}})[0], 200)

    def test_a_book_that_is_gone_is_said_and_not_served(self):
        with Folder(book_smk='table t from "t.csv" (k text)\nview g = scan t | group k {n = count}\n', t_csv="k\na\n") as folder, \
                Server("book.smk", folder=folder.path) as server:
            told = server.ask("/start")[1]
            os.remove(f"{folder.path}/t.csv")
            os.kill(server.engine[0], signal.SIGKILL)
            question = {"data": told["data"], "brushes": {}, "of": {"table": "t"}}
            for _ in range(2):
                status, answer = server.ask("/records", **question)
                self.assertEqual((status, answer["kind"]), (503, "ended"))
            folder.write("t.csv", "k\na\n")
            self.assertEqual(server.ask("/records", **question)[0], 200)

    def test_a_file_that_is_not_whole_is_not_taken_for_whole(self):
        """The program ends for good within a file: the connection breaks."""
        rows = [[number, "x" * 300] for number in range(60_000)]
        with Folder(book_smk='table t from "t.csv" (k int, v text)\nview g = scan t | group v {n = count}\n', t_csv=books.table(["k", "v"], rows)) as folder, \
                Server("book.smk", folder=folder.path) as server:
            told = server.ask("/start")[1]
            connection = http.client.HTTPConnection("127.0.0.1", server.port, timeout=LIMIT)
            connection.request("POST", "/csv", form({"data": told["data"], "brushes": {}, "of": {"table": "t"}, "steps": ""}),
                               {"Content-Type": "application/x-www-form-urlencoded"})
            reply = connection.getresponse()
            reply.read(1000)
            os.remove(f"{folder.path}/t.csv")
            os.kill(server.engine[0], signal.SIGKILL)
            with self.assertRaises(http.client.IncompleteRead):
                reply.read()
            connection.close()

    def test_the_server_ends_with_its_program(self):
        server = Server(str(BIKES / "book.smk"))
        server.ask("/start")
        engine, = server.engine
        status, said = server.close()
        self.assertEqual((status, said), (0, ""))
        with self.assertRaises(ProcessLookupError):
            os.kill(engine, 0)


class Starts(unittest.TestCase):
    def test_the_bikes_without_a_file(self):
        with Server() as server:
            told = server.ask("/start")[1]
            self.assertEqual((told["title"], [table["rows"] for table in told["tables"]]), ("bikes", ["2000", "12"]))

    def test_a_csv_file_and_the_book_that_is_kept(self):
        with Folder(sales_csv="region,amount\nnorth,10\nsouth,20\nnorth,30\n") as folder:
            for words in ((), ("--keep", "kept.smk")):
                with Server("sales.csv", *words, folder=folder.path) as server:
                    told = server.ask("/start")[1]
                    self.assertEqual((told["title"], told["tables"][0]["rows"]), ("sales.csv", "3"))
                    self.assertEqual(sorted(os.listdir(folder.path)), ["sales.csv"] if not words else ["kept.smk", "sales.csv"])
                    self.assertIn("by_region", [chart["view"] for chart in told["charts"]])
            with Server("kept.smk", folder=folder.path) as server:
                self.assertIn("by_region", [chart["view"] for chart in server.ask("/start")[1]["charts"]])
            with Server("sales.csv", "--keep", folder=folder.path) as server:
                said = [server.line() for _ in range(2)]
                self.assertTrue(any(line.startswith(("#", "table")) for line in said), said)

    def test_a_file_as_it_comes(self):
        """A spreadsheet's export is made ready, and its numbers are shown as they were written."""
        with Folder() as folder:
            path = folder.write("export.csv", "sep=;\r\nOrt;Betrag;Tag\r\nKöln;1.234,50;03.03.2026\r\nBonn;-0,05;13.03.2026\r\nKöln;2,00;14.03.2026\r\n".encode("cp1252"))
            for words in ((), ("--keep", "kept.smk")):
                with Server("export.csv", *words, folder=folder.path) as server:
                    data = server.ask("/start")[1]["data"]
                    records = server.ask("/records", data=data, brushes={}, of={"table": "export"})[1]
                    self.assertEqual((records["columns"], records["rows"]), (["Ort", "Betrag", "Tag"], [
                        ["Köln", "1234.50", "2026-03-03"], ["Bonn", "-0.05", "2026-03-13"], ["Köln", "2.00", "2026-03-14"]]))
                    self.assertTrue(server.line().startswith("export.csv was made ready"))
            self.assertEqual(sorted(os.listdir(folder.path)), ["export.csv", "export.ready.csv", "export.ready.csv.json", "kept.smk"])
            os.remove(path)
            with Server("kept.smk", folder=folder.path) as server:
                self.assertEqual(server.ask("/start")[1]["tables"][0]["rows"], "3")

    def test_a_file_as_it_is_asked_for(self):
        """The page takes the words of `prepare`, and with a book none of them."""
        with Folder(sales_csv="Sales 2026;;\nOrt;Betrag;Art\nBonn;1,50;bar\nAachen;2;\nSumme;3,50;\n") as folder:
            for words, rows in (((), 3), (("--leave-out", "totals"), 2), (("--leave-out", "totals", "--columns", "Betrag"), 2)):
                with Server("sales.csv", *words, folder=folder.path) as server:
                    told = server.ask("/start")[1]
                    self.assertEqual(told["tables"][0]["rows"], str(rows))
                    self.assertEqual("by_ort" in [chart["view"] for chart in told["charts"]], "--columns" not in words)
            for words, part in ((("sales.csv", "--columns", "Preis"), "Preis"), (("--trim",), "book"), (("book.smk", "--pad"), "book")):
                server = Server(*words, folder=folder.path)
                self.assertIn(server.process.wait(LIMIT), (1, 2))
                self.assertIn(part, server.close()[1])

    def test_an_empty_field_is_shown_as_one(self):
        """Of a CSV file, also in a column of ints, but not what steps make of its default. A book's own default is shown as it is."""
        book = 'table t from "t.csv" (a int default 0)\nview g = scan t | group a {n = count}\nlineage back g to t\n'
        with Folder(sales_csv="town,discount\nBonn,2.5\nBonn,\nAachen,5.0\n", book_smk=book, t_csv="a,b\n,1\n") as folder:
            for words, table, rows in ((("sales.csv",), "sales", [["Bonn", "2.5"], ["Bonn", ""], ["Aachen", "5.0"]]), (("book.smk",), "t", [["0"]])):
                with Server(*words, folder=folder.path) as server:
                    data = server.ask("/start")[1]["data"]
                    records = server.ask("/records", data=data, brushes={}, of={"table": table})[1]
                    self.assertEqual(records["rows"], rows)
                    if table == "sales":
                        steps = "group {least = min discount, total = sum discount}"
                        asked = server.ask("/records", data=data, brushes={}, of={"table": table}, steps=steps)[1]
                        self.assertEqual(asked["rows"], [["-0.1", "7.4"]])

    def test_a_file_is_looked_at_before_the_program_is_built(self):
        with Folder() as folder:
            server = Server("none.csv", folder=folder.path, programs=folder.path)
            self.assertEqual(server.process.wait(LIMIT), 1)
            self.assertIn("none.csv", server.close()[1])

    def test_faults_are_told_and_no_traceback(self):
        with Folder(book_smk='table t from "t.csv" (k text)\nview g = scan t | group j {n = count}\n', t_csv="k\na\n", empty_csv="",
                    lone_smk='table t from "none.csv" (k text)\n') as folder:
            for words, part in ((("book.smk",), "unknown column"), (("empty.csv",), "no header"), (("none.csv",), "none.csv"), (("none.smk",), "none.smk"),
                                (("lone.smk",), "none.csv")):
                server = Server(*words, folder=folder.path)
                with self.subTest(words=words):
                    self.assertEqual(server.process.wait(LIMIT), 1)
                    said = server.close()[1]
                    self.assertIn(part, said)
                    self.assertNotIn("Traceback", said)

    def test_a_port_that_is_taken(self):
        with Server() as server:
            done = subprocess.run([sys.executable, "-m", "smoke", "page", "--port", str(server.port)], cwd=program.TOP / "python", capture_output=True,
                                  timeout=LIMIT, check=False)
            self.assertEqual((done.returncode, done.stdout), (1, b""))
            self.assertIn(b"--port 0", done.stderr)
            self.assertNotIn(b"Traceback", done.stderr)

    def test_a_page_is_told_that_it_loads(self):
        """Before the program answers, a question is told that it is being started."""
        with Folder() as folder:
            path = folder.write("smoke_live", "#!/bin/sh\nsleep 2\nexec " + program.find("smoke_live") + ' "$@"\n')
            os.chmod(path, 0o755)
            with Server(str(BIKES / "book.smk"), programs=folder.path) as server:
                status, _, body = server.send("POST", "/start", "{}")
                self.assertEqual((status, json.loads(body)["kind"]), (503, "loading"))
                self.assertEqual(server.send("GET", "/")[0], 200)
                self.assertEqual(server.ask("/start")[0], 200)


class Waits(unittest.TestCase):
    def test_a_slow_answer_is_said_to_be_waited_for(self):
        """While one answer takes long, another page is told so at once."""
        with Folder() as folder:
            relay = folder.write("smoke_live", f"""#!/usr/bin/env python3
import subprocess, sys, time
program = subprocess.Popen([{program.find("smoke_live")!r}, *sys.argv[1:]], stdin=subprocess.PIPE)
for line in sys.stdin.buffer:
    if b"by_hour 7" in line:
        time.sleep(3)
    program.stdin.write(line)
    program.stdin.flush()
program.stdin.close()
program.wait()
""")
            os.chmod(relay, 0o755)
            with Server(str(BIKES / "book.smk"), programs=folder.path) as server:
                data = server.ask("/start")[1]["data"]
                slow = threading.Thread(target=server.ask, args=("/charts",), kwargs={"data": data, "brushes": {"by_hour": [7]}, "charts": {}})
                slow.start()
                seen, end = [], time.monotonic() + LIMIT
                while slow.is_alive() and time.monotonic() < end:
                    seen.append(json.loads(server.send("POST", "/waiting", "{}")[2])["count"])
                    time.sleep(0.1)
                slow.join()
                self.assertIn(1, seen)
                self.assertEqual(json.loads(server.send("POST", "/waiting", "{}")[2]), {"count": 0, "seconds": 0})


class Memory(unittest.TestCase):
    def test_the_server_holds_no_records(self):
        """200,000 records go through it as a file, and it holds few megabytes."""
        rows = [[number, f"kind {number % 12}", number % 977] for number in range(200_000)]
        book = ('table t from "t.csv" (k int, v text, w int)\nview g = scan t | group v {n = count}\nview h = scan t | group w {n = count}\n'
                "link g on t to h\nlink h on t to g\n")
        with Folder(book_smk=book, t_csv=books.table(["k", "v", "w"], rows)) as folder, Server("book.smk", folder=folder.path) as server:
            told = server.ask("/start")[1]
            for mark in range(12):
                server.ask("/charts", data=told["data"], brushes={"g": [mark]}, charts={"g": {}, "h": {}})
                server.ask("/records", data=told["data"], brushes={"g": [mark]}, of={"table": "t"})
            body = server.send("POST", "/csv", form({"data": told["data"], "brushes": {}, "of": {"table": "t"}, "steps": ""}), **FORM)[2]
            self.assertEqual(body.count(b"\n"), 200_001)
            with open(f"/proc/{server.process.pid}/status", encoding="ascii") as file:
                most = next(int(line.split()[1]) for line in file if line.startswith("VmHWM"))
            self.assertLess(most, 100_000, "kilobytes at most")


if __name__ == "__main__":
    unittest.main()
