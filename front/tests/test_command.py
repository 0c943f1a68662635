"""Words, files, statuses, and bad input."""

from __future__ import annotations

import contextlib
import os
import pty
import shutil
import signal
import subprocess
import sys
import time
import unittest

from .support import JL, FrontCase, needs_program


@needs_program
class Words(FrontCase):
    def test_statuses(self) -> None:
        self.write("clean.js", "print(1);")
        self.write("bad.js", "print(0 / 0);")
        self.assertEqual(self.jl("clean.js").status, 0)
        self.assertEqual(self.jl("bad.js").status, 1)
        self.assertEqual(self.jl("--max-reports", "1", "bad.js").status, 0)
        self.assertEqual(self.jl("--max-reports", "1", "bad.js", "bad.js", "-", given="0 / 0").status, 1)
        self.assertEqual(self.jl("absent.js", "clean.js").status, 2)

    def test_max_reports_allows_no_errors(self) -> None:
        self.assertEqual(self.jl("--max-reports", "9", "-", given="throw 1;").status, 1)

    def test_wrong_words(self) -> None:
        choices: list[list[str]] = [[], ["--no-such", "a.js"], ["--rules", "nan", "a.js"], ["--budget", "-1", "a.js"]]
        choices += [["--budget", "1e6", "a.js"], ["--jobs", "0", "a.js"], [""], ["-o", "", "a.js"], ["-f", "xml", "a.js"]]
        choices += [["--budget", "9" * 5000, "a.js"], ["offs"], ["cover"], ["cover", "--min-functions", "101", "a.js"]]
        for words in choices:
            ran = self.jl(*words)
            self.assertEqual((ran.status, ran.out), (2, ""), words)
            self.assertEqual(len(ran.err.splitlines()), 1, ran.err)
            self.assertLess(len(ran.err), 200)

    def test_help_and_version(self) -> None:
        self.assertIn("jl cover", self.jl("--help").out)
        self.assertRegex(self.jl("--version").out, r"^jl \d")

    def test_rules_and_budget_are_handed_on(self) -> None:
        given = "print(0 / 0, parseInt('7'));"
        self.assertEqual(self.jl("--rules", "no-radix", "-", given=given).out.count("\n"), 1)
        ran = self.jl("--budget", "1000", "-", given="var x;\nfunction f() {\n  while (true) { x = 1; }\n}\nf();")
        self.assertRegex(
            ran.out, r"^<stdin>:3:\d+: the run takes more than 1,000 steps .* in the function at 2:1 \[spent\]"
        )

    def test_standard_input_has_the_name_that_is_given(self) -> None:
        ran = self.jl("--stdin-filename", "src/a.js", "-", given="print(0 / 0);")
        self.assertTrue(ran.out.startswith("src/a.js:1:7: "))

    def test_many_files_in_order(self) -> None:
        names = [self.write(f"f{number:03}.js", f"{' ' * number}0 / 0;") for number in range(40)]
        ran = self.jl(*names, "--jobs", "4")
        self.assertEqual([line.split(":")[0] for line in ran.out.splitlines()], names)
        self.assertEqual(ran.out, self.jl(*names, "--jobs", "1").out)


@needs_program
class Files(FrontCase):
    def test_folders(self) -> None:
        for name in ("src/b.js", "src/a.js", "src/x.txt", "src/node_modules/c.js", "src/.hidden/d.js", "src/e.mjs"):
            self.write(name, "0 / 0;")
        os.symlink("..", os.path.join(self.folder, "src", "loop"))
        ran = self.jl("src")
        self.assertEqual([it.split(":")[0] for it in ran.out.splitlines()], ["src/a.js", "src/b.js"])
        self.assertIn("src/e.mjs", self.jl("src", "--ext", ".js,.mjs").out)
        self.assertNotIn("src/b.js", self.jl("src", "--ignore", "b.*").out)
        self.assertEqual(self.jl("src", "src/a.js", "./src/a.js").out, ran.out)

    def test_folders_without_scripts(self) -> None:
        self.write("folder/a.txt", "0 / 0;")
        for words in (["folder"], ["offs", "folder"], ["cover", "folder", "--format", "summary"]):
            ran = self.jl(*words)
            self.assertEqual((ran.status, ran.err), (0, "jl: the folders have no scripts\n"), words)

    def test_what_can_not_be_read(self) -> None:
        self.write("good.js", "0 / 0;")
        os.mkfifo(os.path.join(self.folder, "pipe.js"))
        os.symlink("nowhere.js", os.path.join(self.folder, "dangling.js"))
        ran = self.jl("absent.js", "pipe.js", "dangling.js", "good.js")
        self.assertEqual(ran.status, 2)
        self.assertEqual(len(ran.out.splitlines()), 4)
        self.assertEqual(len(ran.err.splitlines()), 3)
        self.assertIn("good.js:1:1", ran.out)

    def test_links_in_a_circle(self) -> None:
        self.write("src/a.js", "0 / 0;")
        for name in ("self", "self.js"):
            os.symlink(name, os.path.join(self.folder, "src", name))
        os.symlink("there", os.path.join(self.folder, "src", "here"))
        os.symlink("here", os.path.join(self.folder, "src", "there"))
        ran = self.jl("src")
        self.assertEqual((ran.status, ran.out.count("\n"), ran.err), (1, 1, ""))
        self.assertEqual(self.jl(os.path.join("src", "self.js")).status, 2)

    def make_deep(self, levels: int) -> None:
        """Makes folders in one another, with a script in the lowest and one in the first."""
        self.addCleanup(self.tool, "rm", "-rf", "deep")
        self.write("deep/top.js", "0 / 0;")
        code = "import os\nfor _ in range({}): os.mkdir('d'); os.chdir('d')\nopen('low.js', 'w').write('0 / 0;')"
        self.tool(sys.executable, "-c", "import os; os.chdir('deep')\n" + code.format(levels))

    def test_deep_folders(self) -> None:
        self.make_deep(1_200)
        ran = self.jl("deep")
        self.assertEqual((ran.status, ran.err), (1, ""))
        names = [os.path.basename(it.split(":")[0]) for it in ran.out.splitlines()]
        self.assertEqual(names, ["low.js", "top.js"])

    def test_a_folder_that_can_not_be_searched(self) -> None:
        # Its path is longer than paths may be.
        self.make_deep(2_100)
        ran = self.jl("deep")
        self.assertEqual(ran.status, 2)
        self.assertIn("the folder can't be searched", ran.err)
        self.assertIn("deep/top.js:1:1: ", ran.out)

    @unittest.skipIf(os.geteuid() == 0, "root may read every file")
    def test_what_may_not_be_read(self) -> None:
        self.write("secret.js", "0 / 0;")
        os.chmod(os.path.join(self.folder, "secret.js"), 0)
        self.assertEqual(self.jl("secret.js").status, 2)

    def test_odd_paths(self) -> None:
        names = ["a b.js", "q'\".js", "back\\slash.js", "a:1:2: x.js", "new\nline.js", "%0A.js", "&<>.js"]
        for name in names:
            self.write(name, "0 / 0;")
        ran = self.jl(".")
        self.assertEqual((ran.status, ran.err, ran.out.count("\n")), (1, "", len(names)))
        for form in ("stylish", "json", "github", "checkstyle", "junit", "sarif", "html"):
            self.assertEqual(self.jl("-f", form, ".").status, 1, form)
        ran = self.jl("absent\n.js")
        self.assertEqual((ran.status, ran.out.count("\n"), ran.err.count("\n")), (2, 1, 1))

    def test_what_is_not_utf8(self) -> None:
        self.write("latin.js", b"var a;\nvar b = '\xff';")
        ran = self.jl("latin.js")
        self.assertEqual(ran.status, 1)
        self.assertRegex(ran.out, r"^latin.js:2:10: byte 16 is not UTF-8")

    def test_what_is_too_large(self) -> None:
        self.write("large.js", b" " * 1_048_577)
        self.write("largest.js", b" " * 1_048_576)
        ran = self.jl("large.js", "largest.js")
        self.assertEqual((ran.status, ran.out.count("\n")), (1, 1))
        self.assertIn("1,048,576 bytes", ran.out)

    def test_odd_texts(self) -> None:
        self.write("null.js", b"var a = '\x00'; \x00")
        self.write("bom.js", b"\xef\xbb\xbfprint(0 / 0);")
        self.write("hash.js", b"#!/usr/bin/env node\nprint(0 / 0);")
        self.write("empty.js", b"")
        ran = self.jl("null.js", "bom.js", "hash.js", "empty.js")
        self.assertEqual(
            [it.split(" ")[0] for it in ran.out.splitlines()], ["null.js:1:14:", "bom.js:1:8:", "hash.js:2:7:"]
        )


class Programs(FrontCase):
    def fake(self, body: str) -> None:
        """Has `jl` run a shell script."""
        self.program = os.path.join(self.folder, self.write("program", "#!/bin/sh\n" + body))
        os.chmod(self.program, 0o755)

    def look(self) -> str:
        self.write("a.js", "print(1);")
        ran = self.jl("a.js")
        self.assertEqual(ran.status, 2, ran)
        self.assertNotIn("Traceback", ran.err)
        return ran.err

    def test_a_program_that_is_not_there(self) -> None:
        self.program = "/nonexistent/jlint"
        self.assertIn("can't be run", self.look())

    def test_what_is_no_program(self) -> None:
        for self.program in (self.folder, os.path.join(self.folder, "a.js"), "no-such-program-on-the-path"):
            self.assertEqual(len(self.look().splitlines()), 1)

    def test_a_copy_that_can_not_build_one(self) -> None:
        top = os.path.dirname(JL)
        shutil.copytree(os.path.join(top, "front"), os.path.join(self.folder, "front"))
        copy = os.path.join(self.folder, self.write("jl", ""))
        shutil.copy(JL, copy)
        ran = self.tool(sys.executable, copy, "jl", env={**os.environ, "JLINT": ""})
        self.assertEqual((ran.returncode, ran.stdout), (2, ""))
        self.assertEqual(ran.stderr, "jl: no program is named: set JLINT to the path of jlint\n")

    def test_a_program_of_no_known_form(self) -> None:
        self.program = os.path.join(self.folder, self.write("program", b"\0\1\2\3"))
        os.chmod(self.program, 0o755)
        self.assertIn("can't be run", self.look())

    def test_a_program_that_is_killed(self) -> None:
        self.fake("kill -9 $$")
        self.assertIn("killed by SIGKILL", self.look())

    def test_a_program_that_answers_nothing_of_use(self) -> None:
        for body in ("exit 0", "echo hello; exit 1", "exit 70", "exit 9", "exit 7", "exit 2"):
            self.fake(body)
            self.assertNotEqual(self.look(), "")

    def test_a_program_that_does_not_end(self) -> None:
        self.fake("exec sleep 60")
        self.write("a.js", "print(1);")
        began = time.monotonic()
        self.assertIn("no answer within 1 seconds", self.jl("--timeout", "1", "a.js").err)
        self.assertLess(time.monotonic() - began, 20)

    def test_a_program_that_does_not_read(self) -> None:
        self.fake("echo 'jlint: refused TooLong'; exit 3")
        self.write("a.js", " " * 1_000_000)
        self.assertEqual(self.jl("a.js").status, 1)


@needs_program
class Output(FrontCase):
    def setUp(self) -> None:
        super().setUp()
        self.write("a.js", "print(0 / 0);")

    def test_output_is_renamed_into_its_place(self) -> None:
        ran = self.jl("a.js", "-o", "found.txt")
        self.assertEqual((ran.status, ran.out), (1, ""))
        self.assertTrue(self.read("found.txt").startswith("a.js:1:7: "))
        self.assertEqual(sorted(os.listdir(self.folder)), ["a.js", "found.txt"])

    def test_output_that_can_not_be_written_changes_nothing(self) -> None:
        ran = self.jl("a.js", "-o", "nowhere/found.txt")
        self.assertEqual(ran.status, 2)
        self.assertEqual(ran.err, "jl: nowhere/found.txt: No such file or directory\n")
        self.assertEqual(os.listdir(self.folder), ["a.js"])

    def test_output_to_a_full_device(self) -> None:
        if not os.path.exists("/dev/full"):
            self.skipTest("there is no /dev/full")
        self.assertEqual(self.jl("a.js", "-o", "/dev/full").status, 2)

    def test_a_reader_that_closes(self) -> None:
        self.write("many.js", "0 / 0;\n" * 3_000)
        words = f"{sys.executable} {JL} many.js | head -n 1"
        ran = subprocess.run(
            ["bash", "-c", f"set -o pipefail; {words}"],
            cwd=self.folder,
            env={**os.environ, "JLINT": self.program},
            capture_output=True,
            text=True,
            check=False,
        )
        self.assertEqual((ran.stdout.count("\n"), ran.stderr), (1, ""))
        self.assertEqual(ran.returncode, 2)

    def test_a_terminal_that_closes(self) -> None:
        self.program = os.path.join(self.folder, self.write("program", "#!/bin/sh\n: > began\nexec sleep 300\n"))
        os.chmod(self.program, 0o755)
        for names in (["a.js"], [self.write(f"f{number}.js", "") for number in range(8)]):
            running = subprocess.Popen(
                [sys.executable, JL, *names, "-o", "found.txt"],
                cwd=self.folder,
                env={**os.environ, "JLINT": self.program},
                stderr=subprocess.DEVNULL,
            )
            began = os.path.join(self.folder, "began")
            while not os.path.exists(began):
                time.sleep(0.05)
            running.send_signal(signal.SIGHUP)
            self.assertEqual(running.wait(100), 128 + signal.SIGHUP)
            os.remove(began)
            self.assertFalse(os.path.exists(os.path.join(self.folder, "found.txt")))

    def test_streams_that_are_closed(self) -> None:
        for words, status in (("a.js >&-", 2), ("- <&-", 2), ("a.js 2>&-", 1)):
            ran = self.tool("bash", "-c", f"{sys.executable} {JL} {words}", env={**os.environ, "JLINT": self.program})
            self.assertEqual(ran.returncode, status, words)
            self.assertNotIn("Traceback", ran.stderr)

    def test_a_report_of_many_lines_on_one_long_line(self) -> None:
        self.write("many.js", "0 / 0;" * 20_000)
        counting = 'BEGIN { for (i = 0; i < 20000; i++) print "1:" 6 * i + 1 " nan-made 1"'
        end = "jlint: normal steps=1 hooks=1 reports=20000"
        program = self.write("program", f"#!/bin/sh\ncat > /dev/null\nawk '{counting}; print \"{end}\" }}'\nexit 1\n")
        self.program = os.path.join(self.folder, program)
        os.chmod(self.program, 0o755)
        for form in ("stylish", "unix", "sarif", "html"):
            ran = self.jl("-f", form, "many.js")
            self.assertEqual((ran.status, ran.err), (1, ""), form)
            self.assertGreaterEqual(ran.out.count("\n"), 20_000)


@needs_program
class Terminals(FrontCase):
    def start(self, *words: str) -> tuple[subprocess.Popen[bytes], int]:
        """Runs `jl` on a terminal, and answers the other end of that."""
        other, terminal = pty.openpty()
        environment = {**os.environ, "JLINT": self.program}
        command = [sys.executable, JL, *words]
        running = subprocess.Popen(command, cwd=self.folder, env=environment, stdout=terminal, stderr=terminal)
        os.close(terminal)
        return running, other

    def test_a_terminal_gets_colour_and_carets_and_how_far_it_is(self) -> None:
        names = [self.write(f"f{number}.js", "print(0 / 0);") for number in range(3)]
        running, other = self.start(*names)
        shown = b""
        with contextlib.suppress(OSError):
            while part := os.read(other, 65536):
                shown += part
        os.close(other)
        self.assertEqual(running.wait(60), 1)
        self.assertIn(b"\r2 of 3 files", shown)
        self.assertIn(b"\r\x1b[K", shown)
        self.assertIn(b"\x1b[33mwarning\x1b[0m", shown)
        self.assertIn(b"            print(0 / 0);\r\n            \x1b[33m      ^", shown)

    def test_a_terminal_that_goes_away(self) -> None:
        names = [self.write(f"f{number}.js", "print(0 / 0);") for number in range(3)]
        running, other = self.start(*names)
        os.close(other)
        self.assertEqual(running.wait(60), 2)


@needs_program
class Caches(FrontCase):
    def test_results_are_kept_by_contents_and_words(self) -> None:
        self.write("a.js", "print(0 / 0);")
        first = self.jl("--cache", "a.js", "-f", "json")
        kept = os.listdir(os.path.join(self.folder, ".jl-cache"))
        self.assertEqual(len(kept), 1)
        os.utime(os.path.join(self.folder, "a.js"))
        self.assertEqual(self.jl("--cache", "a.js", "-f", "json"), first)
        self.assertEqual(os.listdir(os.path.join(self.folder, ".jl-cache")), kept)
        self.jl("--cache", "--rules", "no-radix", "a.js")
        self.write("a.js", "print(1);")
        self.assertEqual(self.jl("--cache", "a.js").status, 0)
        self.assertEqual(len(os.listdir(os.path.join(self.folder, ".jl-cache"))), 3)

    def test_an_entry_that_is_spoiled_counts_for_nothing(self) -> None:
        self.write("a.js", "print(0 / 0);")
        self.jl("--cache", "a.js")
        folder = os.path.join(self.folder, ".jl-cache")
        for spoiled in (b"", b"{", b"[]", b"{}", b"\xff"):
            self.write(os.path.join(".jl-cache", os.listdir(folder)[0]), spoiled)
            self.assertEqual(self.jl("--cache", "a.js").status, 1)


if __name__ == "__main__":
    unittest.main()
