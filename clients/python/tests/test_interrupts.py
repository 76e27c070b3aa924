"""A call that is interrupted closes the store: no reply is ever taken for another command's.

Each round opens the store of one folder again, sends commands whose replies tell them apart, and is interrupted once. It is interrupted at an opcode
of the package's own code, by an exception that a tracer raises there, or by the alarm of a timer. Afterwards each call must be answered by its own
reply, or raise Ended.
EMFSTORE_INTERRUPTS is the number of rounds, and EMFSTORE_SEED the seed.
"""
import os
import random
import signal
import sys
import threading
import unittest

import emfstore
from emfstore import Ended, Interrupted, InUse, Refused, Store
from tests.support import LIBRARY, PROGRAM, folder, library

ROUNDS = int(os.environ.get("EMFSTORE_INTERRUPTS", "1000"))
SEED = int(os.environ.get("EMFSTORE_SEED", "1"))
PACKAGE = os.path.dirname(emfstore.__file__)
LONGEST = 0.002
OF_A_CALL = 400


class Stop(BaseException):
    """What interrupts a call."""


def raise_at(number):
    """A tracer that raises Stop at so many opcodes of the package's code."""
    left = number

    def trace(frame, event, _):
        nonlocal left
        if not frame.f_code.co_filename.startswith(PACKAGE):
            return None
        frame.f_trace_opcodes = True
        if event == "opcode":
            left -= 1
            if left == 0:
                raise Stop
        return trace
    return trace


def ask(store, number):
    """Sends a command whose reply has its number, and that changes nothing; says whether that reply is what is read."""
    count = 1 + number % 997
    return store.ask(f"update 1 {'x' * count}").lines == [f"no 26 BadChoice 0 {count}"]


class Interrupts(unittest.TestCase):
    def setUp(self):
        self.random = random.Random(SEED)
        place = folder()
        self.addCleanup(place.cleanup)
        self.place = place.name
        with library(self.place):
            pass
        self.number = 1

    def calls(self, store, count):
        """Calls one after another, each of which must read its own reply."""
        for _ in range(count):
            self.number += 1
            self.assertTrue(ask(store, self.number), "a reply is another command's")

    def afterwards(self, store):
        """What follows an interruption: own replies, or Ended, and then always Ended."""
        try:
            self.calls(store, 2)
        except Ended:
            with self.assertRaises(Ended):
                ask(store, 7)
            return 1
        return 0

    def test_an_exception_at_each_point(self):
        closed = 0
        for at in range(ROUNDS // 2):
            with Store(PROGRAM, self.place) as store:
                self.calls(store, 1)
                sys.settrace(raise_at(1 + at * OF_A_CALL // (ROUNDS // 2)))
                try:
                    self.calls(store, 4)
                except (Stop, Ended):
                    pass
                finally:
                    sys.settrace(None)
                closed += self.afterwards(store)
        self.assertGreater(closed, ROUNDS // 8, "most points of a call are within one")

    def test_alarms(self):
        closed = 0

        def stop(_, __):
            raise Stop
        before = signal.signal(signal.SIGALRM, stop)
        try:
            for _ in range(ROUNDS - ROUNDS // 2):
                store = Store(PROGRAM, self.place)
                self.calls(store, 1)
                try:
                    try:
                        signal.setitimer(signal.ITIMER_REAL, self.random.uniform(0.00001, LONGEST))
                        while True:
                            self.calls(store, 1)
                    finally:
                        signal.setitimer(signal.ITIMER_REAL, 0)
                except Stop:
                    closed += self.afterwards(store)
                store.close()
        finally:
            signal.signal(signal.SIGALRM, before)
        self.assertGreater(closed, ROUNDS // 8, "most alarms come within a call")

    def test_what_was_interrupted_says_so(self):
        with Store(PROGRAM, self.place) as store:
            store.log()
            store._program._read = lambda command: (_ for _ in ()).throw(KeyboardInterrupt)
            with self.assertRaises(KeyboardInterrupt):
                store.log()
            for _ in range(2):
                with self.assertRaises(Interrupted):
                    store.log()
        with Store(PROGRAM, self.place) as store:
            self.assertEqual(len(store.log()), 2)

    def test_a_call_within_a_call(self):
        """A handler that calls the store while a call is on its way ends both, and neither reads the other's reply."""
        def call(_, __):
            is_busy = store._program._is_busy
            try:
                self.assertEqual(len(store.log()), 2)
            except Ended:
                self.assertTrue(is_busy)
            else:
                self.assertFalse(is_busy)
                signal.setitimer(signal.ITIMER_REAL, LONGEST)
        before = signal.signal(signal.SIGALRM, call)
        try:
            with Store(PROGRAM, self.place) as store:
                store.log()
                signal.setitimer(signal.ITIMER_REAL, LONGEST)
                with self.assertRaises(Ended):
                    while True:
                        self.calls(store, 1)
        finally:
            signal.signal(signal.SIGALRM, before)

    def test_threads(self):
        faults = []
        with Store(PROGRAM, self.place) as store:
            def work(start):
                faults.extend(number for number in range(start, start + 200) if not ask(store, number))
            threads = [threading.Thread(target=work, args=(200 * at,)) for at in range(4)]
            for thread in threads:
                thread.start()
            for thread in threads:
                thread.join()
        self.assertEqual(faults, [])

    def test_after_write_no_command(self):
        with Store(PROGRAM, self.place) as store:
            store.write("log\n")
            with self.assertRaises(ValueError):
                store.log()
            self.assertEqual(store.close(), (0, ""))

    def test_after_close(self):
        with Store(PROGRAM, self.place) as store:
            ann = store.workspace(1)
        for call in (store.log, ann.show, store.upgrade, lambda: store.write("log\n"), lambda: store.ask("# nothing")):
            with self.assertRaises(Ended) as found:
                call()
            self.assertEqual(found.exception.status, 0)


class Faults(unittest.TestCase):
    def test_in_use(self):
        with folder() as place, library(place) as (store, _):
            with Store(PROGRAM, place) as second, self.assertRaises(InUse) as found:
                second.log()
            self.assertIn("in use by another program", str(found.exception))
            with self.assertRaises(InUse):
                Store(PROGRAM, place, wait=0.2)
            self.assertEqual(len(store.log()), 2)

    def test_waiting(self):
        with folder() as place, library(place) as (store, ann):
            waits = []
            timer = threading.Timer(0.3, store.close)
            timer.start()
            with Store(PROGRAM, place, wait=60, tell=lambda: waits.append(1)) as second:
                self.assertEqual(len(second.log()), 2)
            timer.join()
            self.assertTrue(waits)
            self.assertEqual(second.close(), (0, ""))

    def test_no_regular_file(self):
        with folder() as place:
            os.mkdir(os.path.join(place, "emfstore.journal"))
            with Store(PROGRAM, place) as store, self.assertRaises(emfstore.DiskFault) as found:
                store.log()
            self.assertEqual(found.exception.status, 5)

    def test_a_pipe_is_no_store(self):
        with folder() as place:
            os.mkfifo(os.path.join(place, "emfstore.journal"))
            with Store(PROGRAM, place) as store, self.assertRaises(emfstore.DiskFault) as found:
                store.log()
            self.assertIn("no regular file", str(found.exception))

    def test_damaged(self):
        with folder() as place:
            with open(os.path.join(place, "emfstore.journal"), "wb") as file:
                file.write(b"this is no store, and never was one")
            with Store(PROGRAM, place) as store, self.assertRaises(emfstore.Damaged) as found:
                store.log()
            self.assertEqual((found.exception.status, found.exception.at), (6, 0))

    def test_input_fault(self):
        with folder() as place, Store(PROGRAM, place) as store:
            with self.assertRaises(emfstore.InputFault) as found:
                store.ask("x" * (1 << 20) + "x")
            self.assertEqual((found.exception.fault, found.exception.at), (1, 1 << 20))

    def test_no_program(self):
        with self.assertRaises(emfstore.NoProgram):
            Store("/nowhere/emfstore")

    def test_how_the_program_is_found(self):
        with folder() as place:
            given, variable, path = (os.path.join(place, name) for name in ("given", "variable", "path"))
            for name in (given, variable, os.path.join(path, "emfstore")):
                os.makedirs(os.path.dirname(name), exist_ok=True)
                os.symlink(PROGRAM, name)
            before = dict(os.environ)
            self.addCleanup(lambda: (os.environ.clear(), os.environ.update(before)))
            os.environ.update(EMFSTORE=variable, PATH=path)
            self.assertEqual(emfstore.find_program(given), [given])
            self.assertEqual(emfstore.find_program(), [variable])
            del os.environ["EMFSTORE"]
            self.assertEqual(emfstore.find_program(), [os.path.join(path, "emfstore")])
            os.environ["PATH"] = place
            with self.assertRaises(emfstore.NoProgram):
                emfstore.find_program()

    def test_words_and_lines(self):
        with library() as (store, ann):
            for call in (lambda: ann.delete("a b"), lambda: ann.delete(""), lambda: ann.delete("a\nlog"), lambda: ann.commit("a\nlog"),
                         lambda: ann.set("a", "title x", "y"), lambda: ann.set("a", "title", "\ud800"), lambda: store.ask("log\nlog"),
                         lambda: store.ask("init"), lambda: store.ask("log", "x"), lambda: store.ask("init", "a\n.\nb")):
                with self.assertRaises(ValueError):
                    call()
            self.assertEqual(len(store.log()), 2)
            with self.assertRaises(Refused):
                store.init(LIBRARY)


if __name__ == "__main__":
    unittest.main()
