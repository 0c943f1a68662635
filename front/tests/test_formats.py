"""Each output format, read by what reads it."""

from __future__ import annotations

import json
import os
import re
import shutil
import unittest
import xml.etree.ElementTree as ElementTree

from front.rules import RULES

from .json_schema import faults
from .support import DATA, PROGRAM, FrontCase, needs_program, needs_tool

SHAPES = """var shapes = [1], k;
function last(list) {
  return list[list.length].area();
}
for (k in shapes) { print("<&>", 0 / 0); }
print("a" + undefined);
last(shapes);
"""
CHROMIUM = shutil.which("chromium") or shutil.which("chromium-browser") or shutil.which("google-chrome")
ODD_NAMES = ("plain.js", "with space.js", "q'u\"o<t>e&.js", "back\\new\\t.js", "line\nfeed.js", "ä😀.js")


@needs_program
class Formats(FrontCase):
    def setUp(self) -> None:
        super().setUp()
        self.write("shapes.js", SHAPES)
        self.write("clean.js", "print(1);\n")
        self.write("refused.js", 'var a = 1;\nvar r = /a"b/;\n')
        self.write("fault.js", "function half(x) {\n  return x / 2;\n}\nprint(half(7));\n")
        self.files = ["shapes.js", "clean.js", "refused.js", "fault.js"]

    def test_unix_has_a_place_on_each_line(self) -> None:
        ran = self.jl("--format", "unix", *self.files, "absent.js")
        lines = ran.out.splitlines()
        self.assertEqual(len(lines), 7)
        for line in lines:
            self.assertRegex(line, r"^[^:]+:\d+:\d+: .+ \[[a-z-]+\]$")
        self.assertIn("fault.js:2:14: NumberOutside", ran.out)
        self.assertIn("in the function at 1:1", ran.out)
        self.assertEqual(ran.status, 2)

    def test_no_terminal_means_unix(self) -> None:
        self.assertEqual(self.jl(*self.files).out, self.jl("-f", "unix", *self.files).out)

    @needs_tool("vim")
    def test_unix_is_read_by_vim(self) -> None:
        self.write("found.txt", self.jl("-f", "unix", *self.files).out)
        script = "set errorformat=%f:%l:%c:\\ %m | cgetfile found.txt | "
        script += (
            "call writefile(map(getqflist(), {_, it -> it.valid . ' ' . it.lnum . ' ' . it.col}), 'vim.txt') | qall!"
        )
        self.tool("vim", "-u", "NONE", "-n", "-es", "-c", script, timeout=60)
        due = [
            f"1 {line} {column}" for line, column in re.findall(r"^[^:]+:(\d+):(\d+):", self.read("found.txt"), re.M)
        ]
        self.assertEqual(self.read("vim.txt").splitlines(), due)

    def test_stylish_has_a_caret_under_the_place(self) -> None:
        lines = self.jl("-f", "stylish", "shapes.js").out.splitlines()
        at = next(number for number, line in enumerate(lines) if "nan-made" in line)
        self.assertEqual(lines[at + 1].index("0 / 0"), lines[at + 2].index("^"))
        self.assertNotIn("\x1b", "".join(lines))
        self.assertIn("\x1b[31m", self.jl("-f", "stylish", "--color", "shapes.js").out)
        self.assertIn("4 problems (1 error, 3 warnings)", lines[-1])

    def test_json_has_the_shape_of_eslint(self) -> None:
        found = json.loads(self.jl("-f", "json", *self.files).out)
        self.assertEqual([it["filePath"] for it in found], self.files)
        self.assertEqual([len(it["messages"]) for it in found], [4, 0, 1, 1])
        self.assertEqual(found[0]["messages"][1]["ruleId"], "nan-made")
        self.assertEqual((found[0]["errorCount"], found[0]["warningCount"]), (1, 3))
        self.assertEqual(
            [it["end"] for it in found], ["thrown", "normal", "refused BadInput UnclosedText", "fault NumberOutside"]
        )

    def test_github_commands(self) -> None:
        name = self.write("a,b:c%.js", "print(0 / 0);")
        line = self.jl("-f", "github", name).out
        self.assertRegex(line, r"^::warning file=a%2Cb%3Ac%25\.js,line=1,col=7,title=jlint nan-made::[^\n]+\n$")

    def test_sarif_is_of_its_schema(self) -> None:
        found = json.loads(self.jl("-f", "sarif", *self.files, "absent file.js").out)
        with open(os.path.join(DATA, "sarif-2.1.0.json"), encoding="utf-8") as file:
            schema = json.load(file)
        self.assertEqual(faults(found, schema, schema), [])
        run = found["runs"][0]
        rules = [it["id"] for it in run["tool"]["driver"]["rules"]]
        self.assertEqual(rules[:20], [it.name for it in RULES])
        self.assertEqual([rules[it["ruleIndex"]] for it in run["results"]], [it["ruleId"] for it in run["results"]])
        self.assertFalse(run["invocations"][0]["executionSuccessful"])

    def test_the_schema_refuses_what_is_wrong(self) -> None:
        with open(os.path.join(DATA, "sarif-2.1.0.json"), encoding="utf-8") as file:
            schema = json.load(file)
        for wrong in ({}, {"version": "2.1.0", "runs": [{}]}, {"version": "2", "runs": []}):
            self.assertNotEqual(faults(wrong, schema, schema), [])

    @needs_tool("xmllint")
    def test_checkstyle_and_junit_are_read_by_xmllint(self) -> None:
        for name in ODD_NAMES:
            self.write(name, "print('\\x01', 0 / 0); // \x01\x0c\ufffe\n")
        for form, path in (("checkstyle", "//error"), ("junit", "//testcase/failure | //testcase/error")):
            self.write("found.xml", self.jl("-f", form, *self.files, *ODD_NAMES).out)
            ran = self.tool("xmllint", "--noout", "found.xml")
            self.assertEqual((ran.returncode, ran.stderr), (0, ""))
            ran = self.tool("xmllint", "--xpath", f"count({path})", "found.xml")
            self.assertEqual(ran.stdout.strip(), str(6 + len(ODD_NAMES)))

    def test_junit_counts(self) -> None:
        root = ElementTree.fromstring(self.jl("-f", "junit", *self.files).out)
        suites = {it.get("name"): (it.get("tests"), it.get("failures"), it.get("errors")) for it in root}
        self.assertEqual(suites["shapes.js"], ("4", "3", "1"))
        self.assertEqual(suites["clean.js"], ("1", "0", "0"))

    def test_html_has_each_finding_under_its_line(self) -> None:
        page = self.jl("-f", "html", *self.files).out
        self.assertIn("&lt;&amp;&gt;", page)
        self.assertEqual(len(re.findall(r'<tr class="(?:note|error)" data-line="\d+">', page)), 6)
        self.check_rows(page)

    @unittest.skipUnless(CHROMIUM, "chromium is not installed")
    def test_html_in_a_browser(self) -> None:
        self.write("page.html", self.jl("-f", "html", *self.files).out)
        profile = f"--user-data-dir={self.folder}/profile"
        words = [
            "--headless",
            "--no-sandbox",
            "--disable-gpu",
            profile,
            "--dump-dom",
            f"file://{self.folder}/page.html",
        ]
        ran = self.tool(CHROMIUM or "", *words, timeout=120)
        self.check_rows(ran.stdout)

    def check_rows(self, page: str) -> None:
        """Looks whether each note comes right after the row of its line, or after another note of that line."""
        rows = re.findall(r'<tr id="[^"]*?-(\d+)"|<tr class="(?:note|error)" data-line="(\d+)"', page)
        before, notes = "", 0
        for line, noted in rows:
            if noted:
                self.assertEqual(noted, before)
                notes += 1
            before = line or noted
        self.assertEqual(notes, 6)

    def test_odd_paths_in_each_format(self) -> None:
        for name in ODD_NAMES:
            self.write(name, "print(0 / 0);\n")
        for form in ("stylish", "unix", "json", "github", "checkstyle", "junit", "sarif", "html"):
            ran = self.jl("-f", form, *ODD_NAMES)
            self.assertEqual((ran.status, ran.err), (1, ""), form)
        lines = self.jl("-f", "unix", *ODD_NAMES).out.splitlines()
        self.assertEqual(len(lines), len(ODD_NAMES))
        self.assertTrue(lines[3].startswith("back\\new\\t.js:1:7: "))
        self.assertTrue(lines[4].startswith("line\\x0afeed.js:1:7: "))


@needs_program
class Rules(FrontCase):
    def test_the_rules_are_those_of_the_program_and_of_the_pages(self) -> None:
        for rule in RULES:
            self.assertTrue(os.path.isfile(rule.page), rule.page)
            ran = self.tool(PROGRAM or "", "lint", "--rules", rule.name, input="")
            self.assertEqual(ran.returncode, 0, rule.name)
        self.assertEqual([line.split()[1] for line in self.jl("rules").out.splitlines()], [it.name for it in RULES])

    def test_bad_scripts_of_the_pages_are_reported_and_the_mended_are_not(self) -> None:
        for rule in RULES:
            with open(rule.page, encoding="utf-8") as file:
                bad, mended = re.findall(r"```js\n(.*?)```", file.read(), re.S)[:2]
            self.assertIn(f"[{rule.name}]", self.jl("-", given=bad).out)
            self.assertEqual(self.jl("-", given=mended).out, "", rule.name)

    def test_explain(self) -> None:
        self.assertTrue(self.jl("explain", "no-radix").out.startswith("# no-radix"))
        self.assertEqual(self.jl("explain", "no-such").status, 2)


if __name__ == "__main__":
    unittest.main()
