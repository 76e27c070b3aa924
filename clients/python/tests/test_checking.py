"""The checker: of each document of the sessions that is refused it finds a fault of the number that the program tells, and none in those accepted."""
import json
import os
import subprocess
import sys
import unittest

from emfstore import Store, checker, metamodel_rules, model_faults
from emfstore.documents import NotJson, read
from emfstore.metamodel_faults import metamodel_of
from tests.support import ECORE, LIBRARY, PROGRAM, attribute, folder, metamodel, reference

CLIENT = os.path.dirname(os.path.dirname(os.path.abspath(__file__)))
TOP = os.path.join(CLIENT, "..", "..")
FEWEST = 200
STATE = {"eClass": ECORE + "EEnum", "name": "State", "eLiterals": [{"name": "on"}, {"name": "off", "literal": "OFF"}]}
LIB = json.dumps({**LIBRARY, "eClassifiers": [*LIBRARY["eClassifiers"], STATE]})


def first(document, model_of=None):
    """The first fault that the checker finds of itself, in the order of the program."""
    try:
        if model_of is None:
            return next(metamodel_rules.faults(read(document)), None)
        return next(model_faults.faults(metamodel_of(read(model_of)), read(document)), None)
    except NotJson as found:
        return found.fault


def session_documents():
    """The documents of the sessions: where each stands, its number or None where it is accepted, its text, and the metamodel of a model's."""
    sys.path.append(os.path.join(TOP, "checks"))
    from session_files import all_sessions, cut
    before = os.getcwd()
    os.chdir(TOP)
    try:
        sessions = list(all_sessions())
    finally:
        os.chdir(before)
    for place, lines in sessions:
        metamodel_text = None
        for command, reply in cut(lines)[0]:
            word, text, last = command[0].split(" ")[0], "".join(line + "\n" for line in command[1:-1]), reply[-1].split(" ") if reply else [""]
            is_told = last[0] == "ok" or last[2:3] in (["BadModel"], ["BadMetamodel"])
            if word in ("init", "evolve", "import") and is_told:
                yield place, int(last[3]) if last[0] == "no" else None, text, metamodel_text if word == "import" else None
                metamodel_text = text if word != "import" and last[0] == "ok" else metamodel_text


def with_features(*features):
    return json.dumps(metamodel(A=list(features)))


class Sessions(unittest.TestCase):
    def test_each_document(self):
        count, numbers = 0, set()
        for place, number, text, of in session_documents():
            found = first(text, of)
            with self.subTest(place, text=text):
                self.assertEqual(found.number if found else None, number, found)
            count += number is not None
            numbers.add((of is None, number))
        self.assertGreaterEqual(count, FEWEST)
        self.assertLessEqual({(True, number) for number in (1, 2, 3, 4, *range(11, 20))} | {(False, number) for number in range(1, 11)}, numbers)


class Places(unittest.TestCase):
    """Each fault at its path and by its word; the program says the number."""

    MODELS = [
        ('{"eClass":"//Book",', 1, "line 1, column 20", "the end of the text"),
        ('[' * 128 + ']' * 128, 1, "line 1, column 128", "["),
        ('{"eClass":"//Book","pages":\n1e999}', 1, "line 2, column 1", "1e999}"),
        ('{"eClass":"//Book","pages":NaN}', 1, "line 1, column 28", "NaN}"),
        ('{"eClass":"//Book","title":"\\ud800"}', 1, "line 1, column 29", "\\ud800"),
        ('[{"eClass":"//Book"},{"title":"x"}]', 2, "$[1]", "eClass"),
        ('[{"eClass":"//Boock"}]', 2, "$[0].eClass", '"//Boock"'),
        ('{"eClass":"//Book","titel":"x"}', 4, "$.titel", "titel"),
        ('[{"eClass":"//Library","books":[{"title":"x"},{"title":1815}]}]', 5, "$[0].books[1].title", "1815"),
        ('{"eClass":"//Book","pages":1.0}', 5, "$.pages", "1.0"),
        ('{"eClass":"//Book","tags":["a",null]}', 5, "$.tags[1]", "null"),
        ('{"eClass":"//Book","_id":"a","sequel":{"$ref":"b"}}', 6, "$.sequel.$ref", '"b"'),
        ('[{"eClass":"//Book","authors":[{"$ref":"/1"},{"$ref":"/2"}]},{"eClass":"//Writer"}]', 6, "$[0].authors[1].$ref", '"/2"'),
        ('{"eClass":"//Book","sequel":["b"]}', 6, "$.sequel", '["b"]'),
        ('[{"eClass":"//Book","_id":"a"},{"eClass":"//Book","_id":"a"}]', 7, "$[1]._id", '"a"'),
        ('{"eClass":"//Book","_id":"a b"}', 8, "$._id", '"a b"'),
        ('{"eClass":"//Library","books":[{},"x"]}', 10, "$.books[1]", '"x"'),
        ('{"eClass":"//Library","books":[{"eClass":"//Writer"}]}', 10, "$.books[0].eClass", "Writer"),
        ('[{"eClass":"//Book","sequel":{"$ref":"/1"}},{"eClass":"//Writer"}]', 10, "$[0].sequel.$ref", '"/1"'),
    ]
    METAMODELS = [
        ("[]", 2, "$", "[]"),
        ('{"eClass":"EPackage"}', 2, "$", '"EPackage"'),
        (json.dumps({**LIBRARY, "color": 1}), 3, "$.color", "color"),
        (with_features({**attribute("x"), "lowerBound": "1"}), 3, "$.eClassifiers[0].eStructuralFeatures[0].lowerBound", '"1"'),
        (with_features({"eClass": ECORE + "EAttribute", "name": "x"}), 3, "$.eClassifiers[0].eStructuralFeatures[0]", "eType"),
        (with_features(attribute("1x")), 3, "$.eClassifiers[0].eStructuralFeatures[0].name", '"1x"'),
        (json.dumps({**LIBRARY, "eSubpackages": [1]}), 4, "$.eSubpackages", "eSubpackages"),
        (with_features(attribute("x"), attribute("x")), 11, "$.eClassifiers[0].eStructuralFeatures[1]", "x"),
        (with_features(attribute("x", "EDouble")), 12, "$.eClassifiers[0].eStructuralFeatures[0].eType", ECORE + "EDouble"),
        (with_features(reference("x", "B")), 13, "$.eClassifiers[0].eStructuralFeatures[0].eType", "//B"),
        (with_features(reference("x", "A", eOpposite={"$ref": "//A/x"})), 16, "$.eClassifiers[0].eStructuralFeatures[0].eOpposite", "//A/x"),
        (with_features(reference("x", "A", eOpposite={"$ref": "//A/y"})), 17, "$.eClassifiers[0].eStructuralFeatures[0].eOpposite", "//A/y"),
        (with_features(attribute("x", upperBound=0)), 18, "$.eClassifiers[0].eStructuralFeatures[0].upperBound", "0"),
        (with_features(attribute("x", "EInt", defaultValueLiteral="1.5")), 19, "$.eClassifiers[0].eStructuralFeatures[0].defaultValueLiteral",
         '"1.5"'),
    ]

    def test_places(self):
        for document, number, path, word in self.MODELS + self.METAMODELS:
            of = LIB if (document, number, path, word) in self.MODELS else None
            with self.subTest(document), folder() as place, Store(PROGRAM, place) as store:
                words, found = checker.check(store, document, of)
                self.assertIn(f" {number}:", words)
                self.assertEqual((found.number, found.path), (number, path))
                self.assertTrue(found.word.startswith(word), found.word)

    def test_the_command(self):
        with folder() as place:
            bad = '[{"eClass":"//Book"},{"eClass":"//Book","titel":1}]'
            for name, text in (("lib.json", LIB), ("good.json", '{"eClass":"//Book"}'), ("bad.json", bad)):
                with open(os.path.join(place, name), "w", encoding="utf-8") as file:
                    file.write(text)

            def ran(*words):
                around = {**os.environ, "EMFSTORE": PROGRAM, "PYTHONPATH": CLIENT}
                command = [sys.executable, "-m", "emfstore", "check", *words]
                done = subprocess.run(command, cwd=place, env=around, capture_output=True, text=True, timeout=300)
                return done.returncode, done.stdout
            self.assertEqual(ran("lib.json"), (0, "lib.json: accepted\n"))
            self.assertEqual(ran("good.json", "lib.json"), (0, "good.json: accepted\n"))
            self.assertEqual(ran("bad.json", "lib.json"), (1, (
                "bad.json: BadModel 4: the block is no model of the metamodel: a key is no feature of the class\n"
                "  at $[1].titel: titel: Book has no such feature\n")))
            self.assertEqual(ran("nowhere.json")[0], 2)
            self.assertEqual(sorted(os.listdir(place)), ["bad.json", "good.json", "lib.json"])


if __name__ == "__main__":
    unittest.main()
