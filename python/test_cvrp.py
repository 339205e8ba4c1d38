#!/usr/bin/env python3
"""Tests the module `cvrp` with a fake program and, where it is built, with the real one; and that the man page, the completions
and docs/FORMAT.md name the options that there are.

    python3 python/test_cvrp.py
"""

import json
import os
import re
import shutil
import subprocess
import sys
import tempfile
import unittest
from pathlib import Path

HERE = Path(__file__).resolve().parent
TOP = HERE.parent
sys.path.insert(0, str(HERE))

import cvrp  # noqa: E402

PROGRAM = TOP / "crates/cvrp/out/cvrp"
SMALL = TOP / "examples/E-n7-k2.vrp"

# What the program printed of E-n7-k2: without options, with a budget of 1 for one piece, and with one truck.
PROVEN = (
    '{"best_lower_bound":114,'
    '"capacity":3,"cost":114,"cost_is_least":true,"customers":6,"depot":1,"gap":0,"lower_bound":114,"name":"E-n7-k2","options":{"budget":null,"depot":null,'
    '"pieces":64,"seconds":null,"trucks":null,"workers":1},"routes":[{"cost":57,"customers":[1,2,3],"load":3,"nodes":[2,3,4]},{"cost":57,'
    '"customers":[4,5,6],"load":3,"nodes":[5,6,7]}],"stated_cost":null,'
    '"verdict":"Proven","version":"1.0.0"}\n'
)
OPEN = (
    '{"best_lower_bound":88,'
    '"capacity":3,"cost":220,"cost_is_least":false,"customers":6,"depot":1,"gap":15000,"lower_bound":88,"name":"E-n7-k2","options":{"budget":1,"depot":null,'
    '"pieces":1,"seconds":null,"trucks":null,"workers":1},"routes":[{"cost":20,"customers":[1],"load":1,"nodes":[2]},{"cost":40,'
    '"customers":[2],"load":1,"nodes":[3]},{"cost":50,"customers":[3],"load":1,"nodes":[4]},{"cost":50,"customers":[4],"load":1,'
    '"nodes":[5]},{"cost":40,"customers":[5],"load":1,"nodes":[6]},{"cost":20,"customers":[6],"load":1,"nodes":[7]}],"stated_cost":null,'
    '"verdict":"Open","version":"1.0.0"}\n'
)
NO_PLAN = (
    '{"best_lower_bound":null,'
    '"capacity":3,"cost":null,"cost_is_least":null,"customers":6,"depot":1,"gap":null,"lower_bound":null,"name":"E-n7-k2","options":{"budget":null,'
    '"depot":null,"pieces":64,"seconds":null,"trucks":1,"workers":1},"routes":[],"stated_cost":null,"verdict":"NoPlan","version":"1.0.0"}\n'
)
# The same form by hand, as of a file without a name whose nodes 1 and 4 are depots, and a plan to begin with that states a cost.
TWO_DEPOTS = (
    '{"best_lower_bound":50,'
    '"capacity":3,"cost":50,"cost_is_least":true,"customers":3,"depot":4,"gap":0,"lower_bound":50,"name":null,"options":{"budget":null,"depot":4,"pieces":64,'
    '"seconds":null,"trucks":null,"workers":1},"routes":[{"cost":30,"customers":[2,1],"load":2,"nodes":[3,2]},{"cost":20,'
    '"customers":[3],"load":1,"nodes":[5]}],"stated_cost":51,'
    '"verdict":"Proven","version":"1.0.0"}\n'
)

# Keeps its words, its input and the plan that it is to begin with, and answers what it was told to.
FAKE = """\
#!{python}
import json, os, sys
room = os.path.dirname(os.path.abspath(__file__))
words = sys.argv[1:]
start = open(words[words.index("--start") + 1]).read() if "--start" in words else None
seen = dict(words=words, input=sys.stdin.buffer.read().decode("latin-1"), start=start)
json.dump(seen, open(os.path.join(room, "seen"), "w"))
answer = json.load(open(os.path.join(room, "answer")))
sys.stderr.write(answer["errors"])
sys.stdout.write(answer["output"])
sys.exit(answer["status"])
"""


class WithFakeProgram(unittest.TestCase):
    def setUp(self):
        self.room = Path(tempfile.mkdtemp())
        self.addCleanup(shutil.rmtree, self.room)
        self.program = self.room / "fake"
        self.program.write_text(FAKE.format(python=sys.executable))
        self.program.chmod(0o755)

    def will_answer(self, output="", status=0, errors=""):
        (self.room / "answer").write_text(json.dumps({"output": output, "status": status, "errors": errors}))

    def seen(self):
        return json.loads((self.room / "seen").read_text())

    def test_proven(self):
        self.will_answer(PROVEN)
        found = cvrp.solve(SMALL, program=self.program)
        wanted = cvrp.Solution([[1, 2, 3], [4, 5, 6]], [[2, 3, 4], [5, 6, 7]], 114, 114, 114, True, 0, True, "Proven", "E-n7-k2", None, "1.0.0")
        self.assertEqual(found, wanted)
        self.assertEqual(self.seen(), {"words": ["--format", "json"], "input": SMALL.read_text(), "start": None})

    def test_open(self):
        self.will_answer(OPEN, status=1)
        found = cvrp.solve(SMALL, program=self.program)
        self.assertEqual((found.cost, found.lower_bound, found.gap, found.proven, found.verdict), (220, 88, 15000, False, "Open"))
        self.assertEqual(found.routes, [[k] for k in range(1, 7)])

    def test_better_bound(self):
        self.will_answer(OPEN.replace('"best_lower_bound":88', '"best_lower_bound":110').replace('"gap":15000', '"gap":10000'), status=1)
        found = cvrp.solve(SMALL, program=self.program)
        self.assertEqual((found.lower_bound, found.best_lower_bound, found.cost_is_least, found.gap), (88, 110, False, 10000))

    def test_cost_is_least(self):
        """A run may know that no plan costs less, and still end open."""
        told = OPEN.replace('"best_lower_bound":88', '"best_lower_bound":220').replace('"cost_is_least":false', '"cost_is_least":true').replace('"gap":15000', '"gap":0')
        self.will_answer(told, status=1)
        found = cvrp.solve(SMALL, program=self.program)
        self.assertEqual((found.cost, found.cost_is_least, found.proven), (220, True, False))

    def test_no_plan(self):
        self.will_answer(NO_PLAN)
        found = cvrp.solve(SMALL, trucks=1, program=self.program)
        self.assertEqual(found, cvrp.Solution([], [], None, None, None, None, None, False, "NoPlan", "E-n7-k2", None, "1.0.0"))

    def test_two_depots(self):
        self.will_answer(TWO_DEPOTS)
        found = cvrp.solve(SMALL, program=self.program)
        self.assertEqual((found.routes, found.nodes), ([[2, 1], [3]], [[3, 2], [5]]))
        self.assertEqual((found.name, found.stated_cost), (None, 51))

    def test_refused(self):
        for status, text in [(2, "error: invalid value"), (3, "cvrp: line 3: bad number"), (4, "cvrp: out of memory"), (5, "cvrp: read fault")]:
            self.will_answer(status=status, errors=text + "\n")
            with self.assertRaises(cvrp.Refused) as caught:
                cvrp.solve(SMALL, program=self.program)
            self.assertEqual((str(caught.exception), caught.exception.status), (text, status))

    def test_another_end(self):
        self.will_answer(status=70, errors="cvrp: the program could not be built: see above\n")
        with self.assertRaisesRegex(RuntimeError, "status 70: cvrp: the program could not be built"):
            cvrp.solve(SMALL, program=self.program)
        with self.assertRaises(FileNotFoundError):
            cvrp.solve(SMALL, program=self.room / "none")

    def test_words(self):
        self.will_answer(PROVEN)
        cvrp.solve(str(SMALL), seconds=60, workers=4, trucks=2, program=str(self.program))
        self.assertEqual(self.seen()["words"], ["--format", "json", "--seconds", "60", "--workers", "4", "--trucks", "2"])

    def test_start_as_lists(self):
        self.will_answer(PROVEN)
        cvrp.solve(SMALL, start=((1, 2, 3), [6, 5, 4]), program=self.program)
        seen = self.seen()
        self.assertEqual(seen["start"], "Route #1: 1 2 3\nRoute #2: 6 5 4\n")
        self.assertFalse(os.path.exists(seen["words"][-1]), "the plan's file is left")

    def test_start_as_a_path(self):
        self.will_answer(PROVEN)
        plan = TOP / "examples/plans/E-n7-k2.sol"
        for path in [plan, os.path.relpath(plan)]:
            cvrp.solve(SMALL, start=path, program=self.program)
            seen = self.seen()
            self.assertEqual((seen["words"][-2:], seen["start"]), (["--start", str(plan)], plan.read_text()))

    def test_read(self):
        found = cvrp.read(SMALL)
        self.assertEqual((found.name, found.dimension, found.text), ("E-n7-k2", 7, SMALL.read_text()))
        cases = [
            (b"NAME: two words \r\nDIMENSION:\t5.1e1 nodes\r\nEOF\nNAME : late\n", "two words", 51),
            (b" NAME\n DIMENSION : many\n", None, None),
            (b"COMMENT : caf\xe9\nDIMENSION 7\nDIMENSION 8\n1 2 3\n", None, 7),
            (b"EOF\nDIMENSION : 7\n", None, None),
        ]
        self.will_answer(PROVEN)
        for data, name, dimension in cases:
            path = self.room / "file"
            path.write_bytes(data)
            found = cvrp.read(path)
            self.assertEqual((found.name, found.dimension), (name, dimension), data)
            cvrp.solve(found, program=self.program)
            self.assertEqual(self.seen()["input"].encode("latin-1"), data)

    def test_example(self):
        """The example's plan reaches the program, and its text tells what came."""
        for output, status, told in [(PROVEN, 0, "no lawful plan costs less."), (OPEN, 1, "No lawful plan costs less than 88.")]:
            self.will_answer(output, status)
            words = [sys.executable, "-I", str(TOP / "examples/prove_pyvrp.py"), str(self.program)]
            ran = subprocess.run(words, stdout=subprocess.PIPE, stderr=subprocess.PIPE)
            self.assertEqual((ran.returncode, ran.stderr), (0, b""))
            self.assertIn(told, ran.stdout.decode())
        # The same routes as the example's plan on file.
        wanted = (TOP / "examples/E-n51-k5.sol").read_text().replace("Cost 521\n", "")
        self.assertEqual(self.seen()["start"], wanted)


@unittest.skipUnless(PROGRAM.exists(), "the program isn't built: ./cvrp --version builds it")
class WithTheProgram(unittest.TestCase):
    def test_proven(self):
        found = cvrp.solve(SMALL, seconds=60, workers=2, start=[[1], [2], [3], [4], [5], [6]], program=PROGRAM)
        routes, nodes = [[1, 2, 3], [4, 5, 6]], [[2, 3, 4], [5, 6, 7]]
        self.assertEqual(found, cvrp.Solution(routes, nodes, 114, 114, 114, True, 0, True, "Proven", "E-n7-k2", None, "1.0.0"))

    def test_no_plan(self):
        found = cvrp.solve(SMALL, trucks=1, program=PROGRAM)
        self.assertEqual(found, cvrp.Solution([], [], None, None, None, None, None, False, "NoPlan", "E-n7-k2", None, "1.0.0"))

    def test_stated_cost(self):
        self.assertEqual(cvrp.solve(SMALL, start=TOP / "examples/plans/E-n7-k2.sol", program=PROGRAM).stated_cost, 114)

    def test_refused(self):
        with self.assertRaisesRegex(cvrp.Refused, "^cvrp: start plan: route 1: customer 1 is served twice$"):
            cvrp.solve(SMALL, start=[[1, 2, 1]], program=PROGRAM)
        with self.assertRaisesRegex(cvrp.Refused, "^cvrp: missing TYPE$"):
            cvrp.solve(cvrp.Instance("EOF\n"), program=PROGRAM)
        with self.assertRaises(cvrp.Refused) as caught:
            cvrp.solve(SMALL, workers=0, program=PROGRAM)
        self.assertEqual(caught.exception.status, 2)

    def test_example(self):
        words = [sys.executable, "-I", str(TOP / "examples/prove_pyvrp.py"), str(PROGRAM)]
        ran = subprocess.run(words, stdout=subprocess.PIPE, check=True)
        self.assertIn(b"PyVRP's plan costs 521, cvrp's 521.\nThat is proven", ran.stdout)


class Options(unittest.TestCase):
    """The man page, the completions and docs/FORMAT.md beside the command line that the program defines."""

    @classmethod
    def setUpClass(cls):
        cls.source = (TOP / "crates/vrp_command_request/src/grammar.rt").read_text()
        cls.names = re.findall(r'(?:Arg::new|\bnode)\(alloc, "([a-z-]+)"\)', cls.source)
        cls.all = {*cls.names, "help", "version"}
        cls.forms = re.findall(r'"([a-z]+)"', re.search(r"FORMATS: .*= \[(.*)\]", cls.source)[1])
        cls.man = (TOP / "man/cvrp.1").read_text().replace("\\-", "-")
        cls.bash = (TOP / "completions/cvrp.bash").read_text()
        cls.zsh = (TOP / "completions/_cvrp").read_text()
        document = (TOP / "docs/FORMAT.md").read_text()
        cls.format = document[document.index("## The command line") : document.index("How unusual words are taken")]

    def paragraph(self, name):
        """The man page's text on an option."""
        found = re.search(rf'^\.TP\n\.(?:B|BI|BR) .*--{name}\b.*\n((?:(?!\.TP|\.SH).*\n)*)', self.man, re.MULTILINE)
        self.assertIsNotNone(found, f"no paragraph on --{name}")
        return " ".join(found[1].split())

    def test_all_were_read(self):
        listed = re.search(r"OPTIONS: .*?= \[(.*?)\];", self.source, re.DOTALL)[1]
        self.assertEqual([name.lower() for name in re.findall(r"::([A-Z][a-z]+)", listed)], self.made())
        self.assertEqual(len(set(self.names)), len(self.names))
        self.assertIn("workers", self.names)
        self.assertIn("json", self.forms)

    def made(self):
        """The options in the order of the help, by the functions that make them."""
        arms = dict(re.findall(r"CommandOption::([A-Z][a-z]+) => (?:Ok\()?([a-z]+)\(alloc\)", self.source))
        self.assertEqual(sorted(arms.values()), sorted(self.names))
        return list(arms.values())

    def test_names(self):
        for text in (self.man, self.bash, self.zsh):
            self.assertEqual(set(re.findall(r"--([a-z-]+)", text)), self.all)
        synopsis = self.man[self.man.index(".SH SYNOPSIS") : self.man.index(".SH DESCRIPTION")]
        self.assertEqual(set(re.findall(r"--([a-z-]+)", synopsis)), self.all)
        offered = re.search(r"local options='(.*)'", self.bash)[1]
        self.assertEqual({word[2:] for word in offered.split()}, self.all)
        heads = re.findall(r"^    '(?:\(- \*\)'\{-[a-zA-Z],)?--([a-z]+)", self.zsh, re.MULTILINE)
        self.assertEqual(set(heads), self.all)

    def test_format_names(self):
        usage, _, table = self.format.partition("| Option |")
        rows = re.findall(r"^\| `--([a-z-]+)`", table, re.MULTILINE)
        self.assertEqual(sorted(rows), sorted(self.all))
        self.assertEqual(set(re.findall(r"--([a-z-]+)", usage)), self.all - {"version"})

    def test_format_ranges(self):
        ranges = dict(re.findall(r"^\| `--([a-z-]+)` \| 1 to ([\d,]+) ", self.format, re.MULTILINE))
        helped = {}
        for name in self.names:
            help_text = re.search(rf'const {name.upper()}: &str =\s*"(.*?)";', self.source, re.DOTALL)[1].replace("\\n", " ")
            found = re.search(r"From 1 to (\d+)", help_text)
            if found:
                helped[name] = found[1]
        self.assertEqual({name: most.replace(",", "") for name, most in ranges.items()}, helped)

    def test_paragraphs(self):
        for name in self.all:
            self.assertGreater(len(self.paragraph(name)), 10)

    def test_ranges_and_defaults(self):
        ranges = 0
        for name in self.names:
            help_text = re.search(rf'const {name.upper()}: &str =\s*"(.*?)";', self.source, re.DOTALL)[1].replace("\\n", " ")
            found = re.search(r"From 1 to \d+; default [^.]*", help_text)
            if found:
                ranges += 1
                self.assertIn(found[0], self.paragraph(name), name)
        self.assertEqual(ranges, self.source.count("From 1 to "))

    def test_forms(self):
        offered = [re.search(r"compgen -W '(.*)' --", self.bash)[1].split(), re.search(r"form:\((.*)\)", self.zsh)[1].split()]
        self.assertEqual(offered, [self.forms, self.forms])
        for form in self.forms:
            self.assertRegex(self.man, rf"\.TP\n\.B {form}\n")

    def test_version(self):
        version = re.search(r'VERSION: &str = "(.*)"', self.source)[1]
        self.assertIn(f'"cvrp {version}"', self.man.splitlines()[0])

    @unittest.skipUnless(shutil.which("groff"), "no groff here")
    def test_man_page_is_sound(self):
        ran = subprocess.run(["groff", "-man", "-Tutf8", "-ww", str(TOP / "man/cvrp.1")], stdout=subprocess.DEVNULL, stderr=subprocess.PIPE)
        self.assertEqual((ran.returncode, ran.stderr), (0, b""))


if __name__ == "__main__":
    unittest.main()
