#!/usr/bin/env python3
"""Tests the launcher `cvrp`, in a scratch folder and with a fake `rt` that tells in a log what it was asked for.

    python3 python/test_launcher.py
"""

import os
import re
import shutil
import signal
import subprocess
import tempfile
import time
import unittest
from pathlib import Path

TOP = Path(__file__).resolve().parent.parent

# Two libraries that don't use each other, one that uses both, a crate of tests, and a crate of the kit.
CRATES = """\
base:
left may_wait=2: base thiserror
right: base
right_tests tests_may=Threads+Wait: right
cvrp: upper
upper: left right
"""

# As rt does, wants a folder for each crate of the list, and keeps others out of all crates at hand as long as it works; tells if it is kept
# out itself. What it proves is in the folder
# `out`. Sleeps a bit; fails in the crate that the file `fail` names, and dawdles in the one that `slow` names. `rt run` makes a program, if
# the crate doesn't fail, and ends with the status of that program's run on empty input.
FAKE_RT = """\
#!/usr/bin/env bash
crate=$(basename "$PWD")
echo "begin $1 $crate" >> "$ROOM/log"
for name in $(sed -n 's/^\\([a-z_0-9]*\\)[ :].*/\\1/p' ../../crates.txt); do
    [ -d "../$name" ] || echo "no folder of $name" >> "$ROOM/log"
done
for folder in ../*/; do
    exec {lock}< "$folder"
    ! command -v flock > /dev/null || flock -n "$lock" || echo "kept out of $folder" >> "$ROOM/log"
    [ "$1" = run ] || [ "$folder" = "../$crate/" ] || [ -e "$folder/out/rlib/proved" ] || echo "no proof in $folder" >> "$ROOM/log"
done
[ "$crate" != "$(cat "$ROOM/slow" 2> /dev/null)" ] || { echo $$ > "$ROOM/pid"; sleep 30; }
sleep 0.05
echo "end $1 $crate" >> "$ROOM/log"
[ "$crate" != "$(cat "$ROOM/fail" 2> /dev/null)" ] || { echo "no proof of $crate"; exit 1; }
[ "$1" = run ] || { mkdir -p out/rlib; touch out/rlib/proved; exit 0; }
mkdir -p out
[ ! -e "$ROOM/half" ] || { echo half > out/cvrp; chmod +x out/cvrp; echo "half $crate" >> "$ROOM/log"; sleep 30; }
printf '#!/bin/sh\\necho "program %s: $*"\\nexit 3\\n' "$(cat src/main.rt)" > out/cvrp
chmod +x out/cvrp
exit 3
"""


class Launcher(unittest.TestCase):
    def setUp(self):
        self.room = Path(tempfile.mkdtemp())
        self.addCleanup(shutil.rmtree, self.room)
        self.top = self.room / "a clone"
        for crate in ["base", "left", "right", "right_tests", "upper", "cvrp"]:
            (self.top / "crates" / crate / "src").mkdir(parents=True)
        (self.top / "crates/base/data").mkdir()
        (self.top / "crates/base/proofs").mkdir()
        (self.top / "crates/base/proofs/of.antt").write_text("proof")
        (self.top / "crates/cvrp/src/main.rt").write_text("one")
        (self.top / "crates.txt").write_text(CRATES)
        (self.top / "HANDLES").write_text("Handles allowed: Threads.\n")
        shutil.copy(TOP / "cvrp", self.top / "cvrp")
        tools = self.room / "tools"
        tools.mkdir()
        (tools / "rt").write_text(FAKE_RT)
        (tools / "rt").chmod(0o755)
        self.environment = dict(os.environ, ROOM=str(self.room), PATH=f"{tools}:{os.environ['PATH']}", CVRP_JOBS="2")
        self.program = self.top / "crates/cvrp/out/cvrp"

    def begin(self, *words, launcher=None):
        pipe = subprocess.PIPE
        return subprocess.Popen(
            [str(launcher or self.top / "cvrp"), *words], env=self.environment, text=True, stdin=subprocess.DEVNULL, stdout=pipe, stderr=pipe
        )

    def launch(self, *words, launcher=None):
        """The exit status, the output, and what standard error was told."""
        with self.begin(*words, launcher=launcher) as run:
            output, errors = run.communicate(timeout=20)
            return run.returncode, output, errors

    def asked(self):
        """What rt was asked for since the last look."""
        log = self.room / "log"
        lines = log.read_text().splitlines() if log.exists() else []
        log.write_text("")
        return lines

    def begun(self):
        return [line[6:] for line in self.asked() if line.startswith("begin ")]

    def wait_for(self, text, name="log"):
        path = self.room / name
        for _ in range(200):
            if path.exists() and text in path.read_text():
                return
            time.sleep(0.05)
        self.fail(f"never seen: {text}")

    def change(self, path, text):
        # File systems keep times to some milliseconds.
        time.sleep(0.02)
        (self.top / path).write_text(text)

    def assert_clean(self):
        self.assertFalse((self.top / "out/cvrp").exists(), "the old program still waits")
        self.assertEqual(list((self.top / "out/proofs").glob("*")), [], "folders of proofs are left")

    def test_fresh_clone(self):
        status, output, errors = self.launch("--workers", "a b")
        self.assertEqual((status, output), (3, "program one: --workers a b\n"))
        asked = self.asked()
        begun = [line for line in asked if line.startswith("begin ")]
        self.assertEqual(sorted(begun), ["begin lib base", "begin lib left", "begin lib right", "begin lib upper", "begin run cvrp"])
        for crate, used in [("left", "base"), ("right", "base"), ("upper", "left"), ("upper", "right")]:
            self.assertLess(asked.index(f"end lib {used}"), asked.index(f"begin lib {crate}"))
        self.assertLess(asked.index("end lib upper"), asked.index("begin run cvrp"))
        self.assertLess(asked.index("begin lib right"), asked.index("end lib left"), "not side by side")
        self.assertEqual([line for line in asked if line.split()[0] not in ("begin", "end")], [])
        for crate in ["base", "left", "right", "upper"]:
            self.assertTrue((self.top / "crates" / crate / "out/rlib/proved").exists(), crate)
        told = re.findall(r"^cvrp: proving (\w+), (\d+)% done$", errors, re.M)
        self.assertEqual((told[0], told[-1][0]), (("base", "0"), "cvrp"))
        shares = [int(share) for _, share in told]
        self.assertEqual((shares, len(shares)), (sorted(shares), 5))
        self.assertLess(70, shares[-1])
        self.assertRegex(errors, r"^cvrp: proving and building the program; .*, 2 side by side, and takes about \d+ minutes")
        self.assertEqual(self.launch(), (3, "program one: \n", ""))
        self.assertEqual(self.asked(), [])
        self.assert_clean()

    def test_one_at_a_time(self):
        self.environment["CVRP_JOBS"] = "1"
        self.launch()
        asked = self.asked()
        self.assertEqual(len(asked), 10)
        for begin, end in zip(asked[::2], asked[1::2]):
            self.assertEqual((begin.split()[0], end.split()[0], begin.split()[1:]), ("begin", "end", end.split()[1:]))

    def test_what_most_work_waits_for_comes_first(self):
        self.environment["CVRP_JOBS"] = "1"
        (self.top / "crates/right/src/lib.rt").write_text("code " * 10000)
        self.launch()
        self.assertEqual(self.begun(), ["lib base", "lib right", "lib left", "lib upper", "run cvrp"])

    def test_what_is_watched(self):
        self.launch()
        self.asked()
        self.change("crates/base/data/report.txt", "Cost 20\n")
        self.change("crates/cvrp/stdout", "Cost 20\n")
        self.change("README.md", "text")
        self.assertEqual(self.launch(), (3, "program one: \n", ""))
        self.assertEqual(self.asked(), [])
        for path in ["crates/cvrp/src/main.rt", "crates/base/proofs/new.antt", "crates.txt", "HANDLES"]:
            self.change(path, CRATES if path == "crates.txt" else "two")
            self.assertEqual(self.launch()[:2], (3, "program two: \n"))
            self.assertEqual(len(self.begun()), 5, path)
        time.sleep(0.02)
        (self.top / "crates/base/proofs/of.antt").unlink()
        self.launch()
        self.assertEqual(len(self.begun()), 5, "a source was taken away")

    def test_change_while_building(self):
        with self.begin() as run:
            self.wait_for("end lib upper")
            self.change("crates/base/proofs/of.antt", "other")
            run.communicate(timeout=20)
        self.asked()
        self.launch()
        self.assertEqual(len(self.begun()), 5)

    def test_failing_crate(self):
        self.launch()
        self.change("crates/cvrp/src/main.rt", "two")
        for crate in ["left", "cvrp"]:
            (self.room / "fail").write_text(crate)
            self.asked()
            for _ in range(2):
                status, output, errors = self.launch()
                self.assertEqual((status, output), (70, ""))
                self.assertIn(f"no proof of {crate}\n", errors)
                self.assertIn(f"cvrp: {crate} could not be proved\n", errors)
                self.assertIn("program one", self.program.read_text())
                self.assertIn(f"begin {'run' if crate == 'cvrp' else 'lib'} {crate}", self.asked())
            self.assert_clean()
        (self.room / "fail").unlink()
        self.assertEqual(self.launch()[:2], (3, "program two: \n"))

    def test_failing_fresh_clone(self):
        (self.room / "fail").write_text("cvrp")
        self.assertEqual(self.launch()[0], 70)
        self.assertFalse(self.program.exists())

    def interrupt(self, crate, number):
        self.launch()
        self.change("crates/cvrp/src/main.rt", "two")
        (self.room / "slow").write_text(crate)
        self.asked()
        begun = time.monotonic()
        with self.begin() as run:
            self.wait_for(crate)
            run.send_signal(number)
            _, errors = run.communicate(timeout=20)
        self.assertLess(time.monotonic() - begun, 10, "what ran was not ended")
        (self.room / "slow").unlink()
        self.assertEqual(run.returncode, -number)
        *lines, last = errors.splitlines()
        self.assertEqual(last, "cvrp: the program could not be built: interrupted")
        self.assertEqual([line for line in lines if not line.startswith("cvrp: proving ")], [])
        self.assertIn("program one", self.program.read_text())
        self.assert_clean()
        self.assertEqual(self.launch()[:2], (3, "program two: \n"))
        self.assert_clean()

    def test_interrupted(self):
        self.interrupt("lib left", signal.SIGTERM)

    def test_interrupted_at_the_keyboard(self):
        self.interrupt("left", signal.SIGINT)

    def test_interrupted_while_linking(self):
        self.interrupt("cvrp", signal.SIGTERM)

    def test_killed(self):
        """What a killed launcher began still runs, but the next launcher doesn't wait for it, and finds the old program."""
        self.launch()
        self.change("crates/cvrp/src/main.rt", "two")
        (self.room / "slow").write_text("cvrp")
        with self.begin() as run:
            self.wait_for("\n", "pid")
            run.kill()
            run.wait(timeout=20)
            (self.room / "slow").unlink()
            (self.room / "fail").write_text("left")
            self.assertEqual(self.launch()[0], 70)
            self.assertIn("program one", self.program.read_text())
            (self.room / "fail").unlink()
            self.assertEqual(self.launch()[:2], (3, "program two: \n"))
            os.killpg(os.getpgid(int((self.room / "pid").read_text())), signal.SIGTERM)
        self.assert_clean()

    def test_interrupted_with_half_a_program(self):
        (self.room / "half").touch()
        with self.begin() as run:
            self.wait_for("half cvrp")
            run.send_signal(signal.SIGTERM)
            run.communicate(timeout=20)
        self.assertFalse(self.program.exists())
        (self.room / "half").unlink()
        self.assertEqual(self.launch()[:2], (3, "program one: \n"))

    def test_old_program_left_by_a_killed_launcher(self):
        self.launch()
        (self.top / "out").mkdir(exist_ok=True)
        self.program.rename(self.top / "out/cvrp")
        self.program.write_text("half a program")
        self.program.chmod(0o755)
        self.assertEqual(self.launch()[:2], (3, "program one: \n"))
        self.assert_clean()

    def test_no_rt(self):
        (self.room / "tools/rt").unlink()
        self.environment["PATH"] = f"{self.room}/tools:/usr/bin:/bin"
        if shutil.which("rt", path=self.environment["PATH"]):
            self.skipTest("there is an rt in /usr/bin")
        status, output, errors = self.launch()
        self.assertEqual((status, output), (70, ""))
        self.assertIn("cvrp: no command rt here", errors)

    def test_link_to_the_launcher(self):
        (self.room / "bin").mkdir()
        link = self.room / "bin/cvrp"
        link.symlink_to(self.top / "cvrp")
        self.assertEqual(self.launch("x", launcher=link)[:2], (3, "program one: x\n"))

    @unittest.skipUnless(shutil.which("flock"), "no flock here")
    def test_two_at_once(self):
        with self.begin("a") as first:
            self.wait_for("begin lib base")
            with self.begin("b") as second:
                told = [run.communicate(timeout=20) for run in (first, second)]
        self.assertEqual([output for output, _ in told], ["program one: a\n", "program one: b\n"])
        self.assertEqual(told[1][1], "cvrp: the program is being built already; waiting for that\n")
        self.assertEqual(len(self.begun()), 5)

    def test_circle(self):
        (self.top / "crates.txt").write_text("left: right\nright: left\ncvrp: left\n")
        self.assertEqual(self.launch()[0], 70)
        self.assertEqual(self.asked(), [])

    def test_order_of_the_real_list(self):
        """The launcher's list, read out of what it tells, over the repository's own crates.txt."""
        text = (TOP / "crates.txt").read_text()
        uses = {head.split()[0]: used.split() for head, used in (line.split(":") for line in text.splitlines() if line.strip() and not line.startswith("#"))}
        (self.top / "crates.txt").write_text(text)
        for crate in uses:
            (self.top / "crates" / crate / "src").mkdir(parents=True, exist_ok=True)
        self.assertEqual(self.launch()[0], 3)
        wanted, pending = set(), ["cvrp"]
        while pending:
            crate = pending.pop()
            if crate in uses and crate not in wanted:
                wanted.add(crate)
                pending += uses[crate]
        asked = self.asked()
        self.assertEqual({line.split()[2] for line in asked}, wanted)
        self.assertEqual(len(asked), 2 * len(wanted))
        for crate in wanted:
            verb = "run" if crate == "cvrp" else "lib"
            for used in set(uses[crate]) & wanted:
                self.assertLess(asked.index(f"end lib {used}"), asked.index(f"begin {verb} {crate}"))


if __name__ == "__main__":
    unittest.main()
