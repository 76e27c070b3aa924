"""The sender: it takes its turn, stops at the first refusal, says it in words, and leaves no trace where it is dry."""
import json
import os
import pty
import re
import select
import subprocess
import sys
import time
import unittest

from emfstore import Refusal, Store
from emfstore.refusals import METAMODEL_FAULTS, MODEL_FAULTS, REFUSALS, sentence_of
from emfstore.scripts import BadScript, commands_of
from tests.support import LIBRARY, PROGRAM, folder, library

CLIENT = os.path.dirname(os.path.dirname(os.path.abspath(__file__)))
DOCUMENTS = os.path.join(CLIENT, "..", "..", "docs")
AROUND = {**os.environ, "EMFSTORE": PROGRAM, "PYTHONPATH": CLIENT}
SEND = [sys.executable, "-m", "emfstore", "send"]
SECONDS = 300
SOME = 1000
FIRST = f"""# a first session
init
{json.dumps(LIBRARY)}
.
checkout trunk
create 1 Library / l

create 1 Book l books a
commit 1 one book
"""
ANSWERED = "ok\n[]\nok 1 0 trunk\nok l\nok a\nok 1\n"


def sent(place, script, *words):
    """What the sender does with a script on its input."""
    return subprocess.run([*SEND, *words, "-"], cwd=place, env=AROUND, input=script, capture_output=True, text=True, timeout=SECONDS)


def started(place):
    """A sender whose script is still to be written to its input."""
    pipe = subprocess.PIPE
    return subprocess.Popen([*SEND, "-"], cwd=place, env=AROUND, stdin=pipe, stdout=pipe, stderr=pipe, text=True)


class Sending(unittest.TestCase):
    def setUp(self):
        place = folder()
        self.addCleanup(place.cleanup)
        self.place = place.name

    def versions(self):
        with Store(PROGRAM, self.place) as store:
            return len(store.log())

    def test_all_accepted(self):
        ran = sent(self.place, FIRST)
        self.assertEqual((ran.returncode, ran.stdout, ran.stderr), (0, ANSWERED, ""))

    def test_it_stops_at_the_first_refusal(self):
        sent(self.place, FIRST)
        script = 'set 1 a title "Emma"\ncommit 1 titled\ncreate 1 Book l shelf b\ncommit 1 never\ntag r1 trunk\n'
        ran = sent(self.place, script)
        self.assertEqual((ran.returncode, ran.stdout), (1, "ok\nok 2\nno 15 NoFeature\n"))
        self.assertEqual(ran.stderr.splitlines(), [
            "emfstore-send: line 3 of - is refused: create 1 Book l shelf b",
            "  no 15 NoFeature: the element's class has no feature of this name",
            "  accepted before it: 2 commands, on lines 1 to 2, among them version 2; this is kept",
            "  not sent: 2 commands after it"])
        self.assertEqual(self.versions(), 3)

    def test_blocks_and_lines(self):
        ran = sent(self.place, FIRST.replace("\n", "\r\n") + "import 1\n{\"eClass\":\"//Book\",\n\n\"titel\":1}\n.\ncommit 1")
        self.assertEqual((ran.returncode, ran.stdout), (1, ANSWERED + "no 29 BadModel 4\n"))
        self.assertIn("line 10 of - is refused: import 1\n  no 29 BadModel 4: the block is no model of the metamodel: a key is no", ran.stderr)

    def test_a_bad_script_sends_nothing(self):
        for rest, line in (("import 1\n{}\n", 10), (f"commit 1 {'x' * (1 << 20)}\n", 10)):
            ran = sent(self.place, FIRST + rest)
            self.assertEqual((ran.returncode, ran.stdout), (8, ""))
            self.assertIn(f"line {line}", ran.stderr)
            self.assertEqual(os.listdir(self.place), [])
        for script, line in ((b"log\n\xff\n", 2), (b"import 1\n{}\n\xff\n.\n", 3), (b"import 1\n" + b"x" * (1 << 23) + b"\n.\n", 1)):
            with self.assertRaises(BadScript) as found:
                commands_of(script)
            self.assertEqual(found.exception.line, line)

    def test_dry(self):
        ran = sent(self.place, FIRST, "--dry")
        self.assertEqual((ran.returncode, ran.stdout), (0, ANSWERED))
        self.assertIn("would be accepted: 5 commands; nothing was kept", ran.stderr)
        self.assertEqual(os.listdir(self.place), [])
        sent(self.place, FIRST)
        ran = sent(self.place, 'set 1 a title "Emma"\ncommit 1\ncommit 1\n', "--dry")
        self.assertEqual((ran.returncode, ran.stdout), (1, "ok\nok 2\nno 23 NothingLocal\n"))
        self.assertIn("among them version 2; this would be kept", ran.stderr)
        self.assertEqual(self.versions(), 2)

    def test_its_turn(self):
        with library(self.place) as (store, ann):
            for words in ([], ["--dry"]):
                ran = sent(self.place, "log\n", "--wait", "0.3", *words)
                self.assertEqual((ran.returncode, ran.stdout), (75, ""))
                self.assertIn("nothing was sent: the store is in use by another program", ran.stderr)
            others = [started(self.place) for _ in range(3)]
            for number, other in enumerate(others):
                other.stdin.write(f"create 1 Writer / w{number}\n")
                other.stdin.close()
            time.sleep(0.5)
            self.assertEqual([other.poll() for other in others], [None] * 3)
            ann.create("Writer", element="first")
        self.assertEqual([other.wait(SECONDS) for other in others], [0] * 3)
        self.assertEqual([other.stdout.read() for other in others], [f"ok w{number}\n" for number in range(3)])
        for other in others:
            other.stdout.close()
            other.stderr.close()

    def test_an_open_input_holds_no_store(self):
        """The script is read to its end before the store is opened, so who leaves an input open keeps nobody out."""
        sent(self.place, FIRST)
        slow = started(self.place)
        slow.stdin.write("log\n")
        slow.stdin.flush()
        time.sleep(0.3)
        self.assertEqual(self.versions(), 2)
        slow.communicate(timeout=SECONDS)
        self.assertEqual(slow.returncode, 0)

    def test_a_reader_that_is_gone(self):
        sent(self.place, FIRST)
        reading, writing = os.pipe()
        os.close(reading)
        ran = subprocess.run([*SEND, "-"], cwd=self.place, env=AROUND, input=b"log\n", stdout=writing, stderr=subprocess.PIPE, timeout=SECONDS)
        os.close(writing)
        self.assertEqual(ran.returncode, 4)
        self.assertIn(b"couldn't be printed; what was accepted is kept", ran.stderr)

    def test_interrupted(self):
        sent(self.place, FIRST)
        count = 20000
        script = "".join(f'set 1 a title "{number}"\n' for number in range(count))
        with started(self.place) as sender:
            sender.stdin.write(script)
            sender.stdin.close()
            path = os.path.join(self.place, "emfstore.journal")
            before, end = os.path.getsize(path), time.monotonic() + SECONDS
            while os.path.getsize(path) < before + SOME and time.monotonic() < end:
                time.sleep(0.001)
            sender.terminate()
            said, told = sender.stdout.read(), sender.stderr.read()
            self.assertEqual(sender.wait(SECONDS), 130)
        self.assertIn("interrupted at line ", told)
        accepted = said.count("ok\n")
        self.assertGreater(accepted, 0)
        self.assertIn(f"accepted before it: {accepted} command", told)
        with Store(PROGRAM, self.place) as store:
            self.assertIn(len(store.workspace(1).changes()), (accepted, accepted + 1))

    def test_a_damaged_store(self):
        with open(os.path.join(self.place, "emfstore.journal"), "wb") as file:
            file.write(b"this is no store, and never was one")
        ran = sent(self.place, "log\n")
        self.assertEqual((ran.returncode, ran.stdout), (6, ""))
        self.assertIn("the store is damaged at byte 0", ran.stderr)

    def test_wrong_words(self):
        for words in (["--program", "/nowhere/emfstore"], ["--folder", "/nowhere"]):
            self.assertEqual(sent(self.place, "log\n", *words).returncode, 2)
        ran = subprocess.run([*SEND, "nowhere.script"], cwd=self.place, env=AROUND, capture_output=True, text=True, timeout=SECONDS)
        self.assertEqual(ran.returncode, 2)
        self.assertIn("nowhere.script can't be read", ran.stderr)

    def test_a_terminal_sees_how_far_it_is(self):
        script = os.path.join(self.place, "many.script")
        with open(script, "w", encoding="utf-8") as file:
            file.write(FIRST + "".join(f'set 1 a title "{number}"\n' for number in range(3000)))
        main, side = pty.openpty()
        with subprocess.Popen([*SEND, script], cwd=self.place, env={**AROUND, "TERM": "xterm"}, stdout=subprocess.PIPE, stderr=side) as sender:
            os.close(side)
            said = b""
            while select.select([main], [], [], SECONDS)[0]:
                try:
                    part = os.read(main, 1 << 16)
                except OSError:
                    break
                said += part
            self.assertEqual(sender.stdout.read().decode(), ANSWERED + "ok\n" * 3000)
        os.close(main)
        self.assertRegex(said.decode(), r"[1-9][0-9]*( of |/)3005")


class Words(unittest.TestCase):
    """The tables of refusals and faults are those of the documents."""

    def rows(self, page, section):
        with open(os.path.join(DOCUMENTS, page), encoding="utf-8") as file:
            text = file.read().split(f"\n{section}\n", 1)[1].split("\n## ", 1)[0].split("\n### ", 1)[0]
        return {int(number): name for number, name in re.findall(r"^\| ([0-9]+) \| (\w+) \|", text, re.MULTILINE)}

    def test_refusals(self):
        self.assertEqual({number: name for number, (name, _) in REFUSALS.items()}, self.rows("LANGUAGE.md", "## Refusals"))

    def test_faults(self):
        self.assertEqual({number: name for number, (name, _) in METAMODEL_FAULTS.items()}, self.rows("JSON.md", "### Faults of metamodels"))
        self.assertEqual({number: name for number, (name, _) in MODEL_FAULTS.items()}, self.rows("JSON.md", "### Faults of models"))

    def test_sentences(self):
        fields = {24: ("1", "2"), 26: ("2", "1"), 44: ("4", "10")}
        for number, (name, _) in REFUSALS.items():
            sentence = sentence_of(Refusal((), number, name, fields.get(number, ("3",))))
            self.assertNotIn("{", sentence)
            self.assertGreater(len(sentence), 15)
        self.assertIn("a block isn't ended", sentence_of(Refusal((), 44, "BadFrame", ("4", "10"))))
        self.assertIn("the workspace itself", sentence_of(Refusal((), 30, "Interferes", ("local",))))


if __name__ == "__main__":
    unittest.main()
