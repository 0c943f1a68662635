"""What `./jlint` and `.ci/run` take from one another, in one clone and across clones. No proof is made here."""

from __future__ import annotations

import os
import subprocess
import sys
import time
import unittest
from typing import Any

from .clone import BUILDS, PROGRAM, CloneCase

SOURCE = "crates/low/src/lib.rt"
PROGRAMS = ".cache/jlint/programs"


class Sharing(CloneCase):
    def setUp(self) -> None:
        super().setUp()
        self.use_toolchain()

    def programs(self) -> list[str]:
        """The names of the programs that all clones share."""
        return os.listdir(os.path.join(self.folder, PROGRAMS))

    def test_after_the_gate_nothing_is_proved(self) -> None:
        gate = self.gate()
        self.assertEqual(gate.returncode, 0)
        self.assertIn("./jlint runs the program that this run has proved", gate.stderr)
        self.assertIn("engines/tests: skipped", gate.stdout)
        ran = self.launch("lint")
        self.assertEqual((ran.returncode, ran.stdout, ran.stderr), (4, "ran lint\n", ""))
        self.assertEqual(self.proofs(), ["ci"])

    def test_the_next_gate_replaces_the_program(self) -> None:
        self.gate()
        self.write(SOURCE, "// other\n")
        self.executable("made", PROGRAM.replace("ran", "then"))
        self.gate()
        self.assertEqual(self.launch().stdout, "then \n")
        self.assertEqual(self.proofs(), ["ci", "ci"])

    def test_sources_that_change_while_the_gate_runs(self) -> None:
        gate = self.gate(FAKE_CI=f"{BUILDS}open({SOURCE!r}, 'w').write('// new')")
        self.assertEqual(gate.returncode, 0)
        self.assertIn("source files were written or linked meanwhile", gate.stderr)
        self.launch()
        self.assertEqual(self.proofs(), ["ci", "prove"])

    def test_sources_that_change_and_change_back_while_the_gate_runs(self) -> None:
        wrote = "".join(f"open({SOURCE!r}, 'w').write({it!r}); " for it in ("// new\n", "// low\n"))
        gate = self.gate(FAKE_CI=BUILDS + wrote)
        self.assertIn("source files were written or linked meanwhile", gate.stderr)
        self.assertFalse(os.path.exists(os.path.join(self.folder, "out", "jlint")))

    def test_a_gate_that_fails_hands_nothing_over(self) -> None:
        gate = self.gate(FAKE_CI=f"{BUILDS}sys.exit(1)")
        self.assertEqual((gate.returncode, gate.stderr), (1, ""))
        self.assertFalse(os.path.exists(os.path.join(self.folder, "out", "jlint")))

    def test_what_an_earlier_run_built_is_not_taken(self) -> None:
        self.executable("crates/jlint/out/jlint", PROGRAM)
        gate = self.gate(FAKE_CI="pass")
        self.assertEqual(gate.returncode, 0)
        self.assertIn("has left no new program", gate.stderr)
        self.assertFalse(os.path.exists(os.path.join(self.folder, "out", "jlint")))

    def test_a_gate_without_python(self) -> None:
        os.remove(os.path.join(self.path, "python3"))
        self.executable("bin/rt", "#!/bin/sh\necho '2 passed, 0 failed'\nexit $STATUS\n")
        for status in (0, 1):
            gate = self.gate(STATUS=str(status))
            self.assertEqual((gate.returncode, gate.stdout, gate.stderr), (status, "2 passed, 0 failed\n", ""))

    def test_a_second_clone_takes_the_program(self) -> None:
        self.gate()
        other = self.second_clone()
        ran = self.launch("lint", clone=other)
        self.assertEqual((ran.returncode, ran.stdout, ran.stderr), (4, "ran lint\n", ""))
        self.assertEqual(self.proofs(), ["ci"])

    def test_a_program_of_another_kit_is_not_taken(self) -> None:
        self.gate()
        self.launch(clone=self.second_clone(), FAKE_KIT="kit 2")
        self.assertEqual(self.proofs(), ["ci", "prove"])

    def test_a_program_of_other_contents_is_not_taken(self) -> None:
        self.gate()
        other = self.second_clone()
        self.write("other/HANDLES", "Handles allowed: Wait.\n")
        self.launch(clone=other)
        self.assertEqual(self.proofs(), ["ci", "prove"])

    def test_a_program_that_was_damaged_is_not_taken(self) -> None:
        self.gate()
        (name,) = self.programs()
        self.write(f"{PROGRAMS}/{name}", "#!/bin/sh\necho damaged\n")
        ran = self.launch(clone=self.second_clone())
        self.assertEqual((ran.returncode, ran.stdout), (4, "ran \n"))
        self.assertEqual(self.proofs(), ["ci", "prove"])
        self.assertEqual(self.programs(), [name])

    def test_what_others_can_write_is_not_taken(self) -> None:
        self.gate()
        os.chmod(os.path.join(self.folder, PROGRAMS), 0o777)
        self.launch(clone=self.second_clone())
        self.assertEqual(self.proofs(), ["ci", "prove"])

    def test_the_last_eight_programs_are_kept(self) -> None:
        lines = (
            "from shared import SharedPrograms as Shared",
            "for number in range(8): Shared(str(number)).keep('../made')",
            "Shared('0').find()",
            "Shared('8').keep('../made')",
            "print([number for number in range(10) if Shared(str(number)).find()])",
        )
        tools = os.path.join(self.folder, "tools")
        said = subprocess.check_output([sys.executable, "-c", "\n".join(lines)], cwd=tools, env=self.environment({}))
        self.assertEqual(said, b"[0, 2, 3, 4, 5, 6, 7, 8]\n")

    def test_a_cache_that_cannot_be_written(self) -> None:
        self.write("no-folder", "")
        gate = self.gate(XDG_CACHE_HOME=os.path.join(self.folder, "no-folder"))
        self.assertEqual(gate.returncode, 0)
        self.assertIn("other clones won't find the program", gate.stderr)
        self.assertEqual(self.launch().returncode, 4)
        self.assertEqual(self.proofs(), ["ci"])

    def test_two_clones_at_once_prove_once(self) -> None:
        named: dict[str, Any] = {"stdout": subprocess.PIPE, "stderr": subprocess.PIPE, "text": True}
        clones = [self.folder, self.second_clone()]
        calls = [subprocess.Popen([f"{it}/jlint"], env=self.environment({}), **named) for it in clones]
        said = [call.communicate(timeout=60) for call in calls]
        self.assertEqual([call.returncode for call in calls], [4, 4])
        self.assertEqual([out for out, _ in said], ["ran \n", "ran \n"])
        self.assertEqual(sum("waiting for a ./jlint in another clone" in err for _, err in said), 1)
        self.assertEqual(self.proofs(), ["prove"])

    def test_a_run_that_was_killed_is_waited_for(self) -> None:
        self.write("tools/prove.py", self.read("tools/prove.py") + "time.sleep(2)\n")
        other = self.second_clone()
        words = [sys.executable, "tools/program.py"]
        call = subprocess.Popen(words, cwd=self.folder, env=self.environment({}), stderr=subprocess.DEVNULL)
        log = os.path.join(self.folder, "rt.log")
        while not os.path.exists(log) or "prove" not in self.read("rt.log"):
            time.sleep(0.05)
        call.kill()
        call.wait()
        ran = self.launch(clone=other)
        self.assertEqual(ran.returncode, 4)
        self.assertIn("waiting for a ./jlint in another clone", ran.stderr)

    def test_clones_prove_in_one_copy_of_their_own_sources(self) -> None:
        self.launch()
        other = self.second_clone()
        os.remove(os.path.join(other, "HANDLES"))
        self.write("other/crates.txt", "high:\njlint: high\n")
        os.rename(os.path.join(other, "crates/low"), os.path.join(other, "crates/high"))
        self.assertEqual(self.launch(clone=other).returncode, 4)
        copy = os.path.join(self.folder, ".cache/jlint/copy")
        self.assertEqual(sorted(os.listdir(os.path.join(copy, "crates"))), ["high", "jlint"])
        self.assertFalse(os.path.exists(os.path.join(copy, "HANDLES")))
        self.assertEqual(self.proofs(), ["prove", "prove"])


if __name__ == "__main__":
    unittest.main()
