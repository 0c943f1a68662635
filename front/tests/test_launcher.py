"""The program that `./jlint` runs: when it is proved anew, and what is said meanwhile. No proof is made here."""

from __future__ import annotations

import os
import subprocess
import sys
import unittest

from .clone import CloneCase

FAKE_RT = """#!/usr/bin/env python3
import sys
with open({log!r}, "a") as log:
    log.write(" ".join(sys.argv[1:]) + "\\n")
sys.exit(1)
"""


class Launcher(CloneCase):
    def install(self) -> None:
        """Puts a program in its place, as if it were proved of these sources."""
        code = "import program as p; p.install('../made', p.look(p.TOP))"
        subprocess.run([sys.executable, "-c", code], cwd=os.path.join(self.folder, "tools"), check=True)

    def test_without_a_toolchain(self) -> None:
        ran = self.launch("lint")
        self.assertEqual((ran.returncode, ran.stdout), (70, ""))
        self.assertIn("no rt on the path", ran.stderr)

    def test_words_and_status_are_those_of_the_program(self) -> None:
        self.install()
        ran = self.launch("lint", "--budget", "5")
        self.assertEqual((ran.returncode, ran.stdout, ran.stderr), (4, "ran lint --budget 5\n", ""))

    def test_a_touched_file_costs_nothing(self) -> None:
        self.install()
        os.utime(os.path.join(self.folder, "crates/low/src/lib.rt"), (1, 1))
        self.assertEqual(self.launch().returncode, 4)

    def test_a_branch_that_is_switched_and_back_costs_nothing(self) -> None:
        self.install()
        self.write("crates/low/src/lib.rt", "// other\n")
        self.assertEqual(self.launch().returncode, 70)
        self.write("crates/low/src/lib.rt", "// low\n")
        self.assertEqual(self.launch().returncode, 4)

    def test_a_program_that_was_changed_is_not_run(self) -> None:
        self.install()
        os.utime(os.path.join(self.folder, "crates/low/src/lib.rt"), (1, 1))
        self.write("out/jlint", "#!/bin/sh\necho other\n")
        self.assertEqual(self.launch().returncode, 70)

    def test_proofs_are_left_to_the_kit(self) -> None:
        log = os.path.join(self.folder, "rt.log")
        self.write("bin/rt", FAKE_RT.format(log=log) + "class Kept: pass\nci_of = own_sum = STORE = None\n")
        os.chmod(os.path.join(self.folder, "bin/rt"), 0o755)
        ran = self.launch("lint")
        self.assertEqual(ran.returncode, 70)

    def test_unproved_answers_say_so(self) -> None:
        body = "#!/bin/sh\ncat\necho 'checked: ended status=1' >&2\n"
        body += "echo 'run=ended status=1 runners=1 proved=no' >&2\nexit 1\n"
        self.write("bin/rt", body)
        os.chmod(os.path.join(self.folder, "bin/rt"), 0o755)
        ran = self.launch("lint", JLINT_UNPROVED="1")
        self.assertEqual(ran.returncode, 1)
        self.assertEqual(ran.stderr.count("unproved"), 2)
        self.assertNotIn("run=ended", ran.stdout)

    def test_progress(self) -> None:
        log = self.write("log", "rt: low is kept: an earlier run proved the same\n")
        code = "import proving; p = proving.Proving('..', '../log'); p.began -= 600; print(p.progress())"
        self.assertEqual(self.python(code), "1 of 2 crates, 10 min\n")
        self.write(log, "== low\nfn low::echo: proved\nrt: low proved\n")
        self.assertEqual(self.python(code), "1 of 2 crates, 10 min, about 11 to go\n")

    def python(self, code: str) -> str:
        """What a line of Python prints in the folder of the tools."""
        return self.tool(
            sys.executable, "-c", "import os; os.chdir('tools'); import sys; sys.path.insert(0, ''); " + code
        ).stdout


if __name__ == "__main__":
    unittest.main()
