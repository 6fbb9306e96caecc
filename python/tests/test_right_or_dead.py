"""Interrupts, threads, timeouts and ends: a session gives the right answer, or is over."""
import os
import random
import signal
import threading
import time
import unittest

import smoke
from smoke import Ended
from tests import archives, running

BIKES = str(archives.EXAMPLES / "bikes" / "book.smk")


class RightOrDead(unittest.TestCase):
    @classmethod
    def setUpClass(cls):
        cls.live = running.need("smoke_live")

    def questions(self, session):
        """Questions of which each has an answer of its own: a function, and the answer."""
        asks = [(lambda n=n: session.back("by_hour", n, "rides")) for n in range(15)]
        asks += [(lambda n=n: session.ask("by_day", n, "rides", "group station {n = count}")) for n in range(7)]
        asks += [(lambda: session.fwd("stations", 3, "by_district")), (lambda: self.brushed(session))]
        return [(ask, ask()) for ask in asks]

    def brushed(self, session):
        """What a brush makes of a view, by names, and the view without brushes."""
        brush = session.brush("by_hour", {"hour": 15}, "rides", brief=True)
        marks = session.marks("by_day", [{"day": "Sun"}])
        filtered = session.show("by_day")
        session.clear(brief=True)
        return brush, marks, filtered, session.show("by_day")

    def compare_state(self, session):
        """After an interrupt a brush may be in force: the session and the program agree on it."""
        count, shown = session.selected("rides", part=(0, 0)).count, session.show("by_day")
        self.assertEqual((sum(shown["rides"]), shown.places is None), (count, count != 2000))
        session.clear()

    def test_interrupts(self):
        """1,000 interrupts at random moments: after each the session gives the right answer, or says that it is over."""
        class Interrupt(KeyboardInterrupt):
            pass

        def interrupt(*_):
            raise Interrupt

        chance = random.Random(13)
        before = signal.signal(signal.SIGALRM, interrupt)
        session, cut, held, late = None, 0, 0, 0
        try:
            wanted = int(1000 * min(1, running.COUNT / 20000)) or 1
            tried = 0
            while tried < wanted:
                if session is None:
                    session = smoke.connect(BIKES, timeout=600)
                    questions = self.questions(session)
                ask, right = chance.choice(questions)
                signal.setitimer(signal.ITIMER_REAL, chance.uniform(0.00005, 0.004))
                try:
                    for _ in range(3):
                        self.assertEqual(ask(), right)
                    time.sleep(0.005)
                except Interrupt:
                    cut += 1
                finally:
                    try:
                        signal.setitimer(signal.ITIMER_REAL, 0)
                    except Interrupt:
                        pass
                tried += 1
                ask, right = chance.choice(questions)
                try:
                    self.compare_state(session)
                    self.assertEqual(ask(), right)
                    held += 1
                except Ended as fault:
                    self.assertIn("interrupted", fault.why)
                    self.assertEqual(session.ended, fault.why)
                    with self.assertRaises(Ended):
                        session.show("by_day")
                    session.close()
                    self.assertIsNotNone(session._talk.process.returncode)
                    session = None
                    late += 1
        finally:
            signal.signal(signal.SIGALRM, before)
            if session is not None:
                session.close()
        print(f"{cut} interrupts of {tried}: {held} times the next answer was right, {late} times the session was over", flush=True)
        self.assertGreater(cut, tried // 2)

    def test_threads(self):
        """Seven threads ask what no brush changes, beside one that brushes."""
        with smoke.connect(BIKES, timeout=600) as session:
            *questions, brushed = self.questions(session)
            wrong = []

            def work(seed):
                chance = random.Random(seed)
                for _ in range(150):
                    ask, right = chance.choice(questions) if seed else brushed
                    if ask() != right:
                        wrong.append(seed)
            threads = [threading.Thread(target=work, args=(seed,)) for seed in range(8)]
            for thread in threads:
                thread.start()
            for thread in threads:
                thread.join()
            self.assertEqual(wrong, [])

    def test_a_timeout(self):
        session = smoke.connect(BIKES)
        session._talk.timeout = 0.5
        os.kill(session._talk.process.pid, signal.SIGSTOP)
        os.waitid(os.P_PID, session._talk.process.pid, os.WSTOPPED | os.WNOWAIT)
        start = time.monotonic()
        with self.assertRaises(Ended) as caught:
            session.show("by_day")
        self.assertIn("0.5 seconds", str(caught.exception))
        self.assertLess(time.monotonic() - start, 300)
        with self.assertRaises(Ended):
            session.show("by_day")
        self.assertIsNotNone(session._talk.process.poll())
        session.close()

    def test_a_program_that_is_killed(self):
        session = smoke.connect(BIKES)
        session._talk.process.kill()
        for _ in range(2):
            with self.assertRaises(Ended) as caught:
                session.show("by_day")
        self.assertIn("signal 9", str(caught.exception))
        session.close()

    def test_another_process(self):
        with smoke.connect(BIKES) as session:
            child = os.fork()
            if child == 0:
                try:
                    session.show("by_day")
                except Ended:
                    session.close()
                    os._exit(7)
                os._exit(8)
            self.assertEqual(os.waitstatus_to_exitcode(os.waitpid(child, 0)[1]), 7)
            self.assertEqual(session.show("by_day").count, 7)

    def test_another_exception(self):
        session = smoke.connect(BIKES)

        def fail(*_):
            raise MemoryError("none left")
        session._talk._parts = fail
        with self.assertRaises(MemoryError):
            session.show("by_day")
        with self.assertRaises(Ended) as caught:
            session.show("by_day")
        self.assertIn("none left", str(caught.exception))

    def test_what_is_said_on_standard_error(self):
        with running.Folder() as folder:
            program = running.stub(folder, "print('schema 0 0\\n', flush=True)\nsys.stdin.readline()\nprint('smoke: no memory', file=sys.stderr)\nsys.exit(8)")
            session = smoke.connect(folder.write("book.smk", ""), program=program)
            with self.assertRaises(Ended) as caught:
                session.line("clear")
            self.assertEqual((caught.exception.status, caught.exception.said), (8, "smoke: no memory"))
            self.assertIn("no memory", str(caught.exception))

    def test_no_program_is_left(self):
        session = smoke.connect(BIKES)
        process = session._talk.process.pid
        session.close()
        with self.assertRaises(ProcessLookupError):
            os.kill(process, 0)
