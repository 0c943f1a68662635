"""What ran: LCOV, Cobertura, the page, and thresholds."""

from __future__ import annotations

import os
import re
import shutil
import unittest
import xml.etree.ElementTree as ElementTree

from front.coverage import coverage_of
from front.records import BadRecord, read_record, read_replayed
from front.source import Place, SourceText

from .support import DATA, FrontCase, needs_program, needs_tool

RECORD = b"""jlint-record 1
rows 5
ScriptEnter 1:1
ScriptExit 1:1
Binary 1:1
Literal 1:1
Literal 1:5
off 0
ops 5
1 ScriptEnter
4 Literal n0
5 Literal n0
3 Binary "/" n0 n0 nNaN
2 ScriptExit
end
"""
SCRIPT = """function used(a) {
  if (a > 1) {
    return "large";
  }
  return "small";
}
function unused() {
  return used(9);
}
var o = { get size() { return 1; } };
o.grow = function () { return 2; };
used(1);
used(0);
print(o.size ? 0 / 0 : 1);
"""


class Records(unittest.TestCase):
    def test_a_record(self) -> None:
        record = read_record(RECORD)
        self.assertEqual([it.kind for it in record.rows][2:], ["Binary", "Literal", "Literal"])
        self.assertEqual(record.counts[3], 1)
        coverage = coverage_of("a.js", SourceText("0 / 0;"), record, lambda place: place)
        self.assertEqual(coverage.lines, {1: 1})

    def test_conditions(self) -> None:
        values = [b"u", b"z", b"f", b"n0", b"nNaN", b'""', b"t", b"n-1", b'"f"', b"o9:Array"]
        lines = b"".join(b"1 Conditional " + it + b"\n" for it in values)
        text = b"jlint-record 1\nrows 1\nConditional 1:1\noff 1\n3 nan-made\nops 10\n" + lines + b"end\n"
        record = read_record(text)
        self.assertEqual((record.true[1], record.false[1]), (4, 6))

    def test_what_is_no_record(self) -> None:
        for text in (b"", b"jlint-record 2\n", RECORD[:-4], RECORD[:60], RECORD.replace(b"ops 5", b"ops 6")):
            with self.assertRaises(BadRecord):
                read_record(text)

    def test_replayed(self) -> None:
        lines = read_replayed(b"1:1 nan-made 1\njlint: replayed hooks=5 reports=1\n")
        self.assertEqual([(it.place, it.rule) for it in lines], [(Place(1, 1), "nan-made")])


@needs_program
class Cover(FrontCase):
    def setUp(self) -> None:
        super().setUp()
        self.use_fake()
        self.write("a.js", SCRIPT)

    def test_lcov(self) -> None:
        ran = self.jl("cover", "a.js")
        self.assertEqual((ran.status, ran.err), (0, ""))
        lines = ran.out.splitlines()
        self.assertIn(f"SF:{os.path.realpath(self.folder)}/a.js", lines)
        for line in ("FN:1,used", "FNDA:2,used", "FN:7,unused", "FNDA:0,unused", "FNDA:0,o.grow", "FNDA:1,get size"):
            self.assertIn(line, lines)
        for line in ("FNF:4", "FNH:2", "BRDA:2,0,0,0", "BRDA:2,0,1,2", "BRF:4", "BRH:2"):
            self.assertIn(line, lines)
        for line in ("DA:2,2", "DA:3,0", "DA:5,2", "DA:8,0", "DA:12,1", "LF:9", "LH:7"):
            self.assertIn(line, lines)
        self.assertFalse(any(it.startswith("DA:1,") for it in lines))

    @needs_tool("genhtml")
    def test_genhtml_draws_the_tracefile(self) -> None:
        self.jl("cover", "a.js", "-o", "a.info")
        ran = self.tool("genhtml", "--branch-coverage", "-o", "pages", "a.info")
        self.assertEqual(ran.returncode, 0, ran.stderr)
        self.assertRegex(ran.stdout, r"lines\.+: 77\.8% \(7 of 9 lines\)")
        self.assertRegex(ran.stdout, r"functions\.+: 50\.0% \(2 of 4 functions\)")
        self.assertRegex(ran.stdout, r"branches\.+: 50\.0% \(2 of 4 branches\)")

    @needs_tool("xmllint")
    def test_cobertura_is_of_its_form(self) -> None:
        self.jl("cover", "-f", "cobertura", "a.js", "-o", "a.xml")
        ran = self.tool("xmllint", "--noout", "--nonet", "--dtdvalid", os.path.join(DATA, "cobertura.dtd"), "a.xml")
        self.assertEqual((ran.returncode, ran.stderr), (0, ""))
        root = ElementTree.parse(os.path.join(self.folder, "a.xml")).getroot()
        self.assertEqual((root.get("lines-covered"), root.get("branches-valid")), ("7", "4"))
        line = root.find(".//line[@number='2'][@branch]")
        assert line is not None
        self.assertEqual(line.get("condition-coverage"), "50% (1/2)")

    def test_the_page(self) -> None:
        page = self.jl("cover", "-f", "html", "a.js").out
        rows = re.findall(
            r'<tr id="a.js-(\d+)"( class="never")?><td class="number">\d+</td><td class="count">(\d*)</td>', page
        )
        self.assertEqual(len(rows), len(SCRIPT.splitlines()))
        self.assertEqual([int(it[0]) for it in rows if it[1]], [3, 8])
        notes = re.findall(r'<tr class="(note|gap)" data-line="(\d+)">.*?<pre>(.*?)</pre>', page)
        self.assertIn(("gap", "7", "^ function never entered"), notes)
        self.assertIn(("gap", "2", "      ^ condition never true"), notes)
        self.assertEqual([it[1] for it in notes if it[0] == "note"], ["14"])

    def test_thresholds(self) -> None:
        self.assertEqual(self.jl("cover", "--min-functions", "50", "--min-branches", "50", "a.js").status, 0)
        ran = self.jl("cover", "--min-functions", "51", "a.js")
        self.assertEqual((ran.status, ran.err), (1, "jl: 50.0 % of the functions ran, and --min-functions asks 51 %\n"))
        self.assertEqual(self.jl("cover", "--min-branches", "101", "a.js").status, 2)

    def test_summary(self) -> None:
        self.assertIn("50.0 %        (2/4)", self.jl("cover", "-f", "summary", "a.js").out)

    def test_preludes_are_not_counted(self) -> None:
        with_prelude = self.jl("cover", "--prelude", "es5", "--commonjs", "a.js").out
        self.assertEqual(with_prelude, self.jl("cover", "a.js").out)

    def test_a_stored_record(self) -> None:
        self.write("b.js", "0 / 0;")
        self.write("b.record", RECORD)
        shutil.copy(os.path.join(self.folder, "b.record"), os.path.join(self.folder, "spoiled.record"))
        ran = self.jl("cover", "--record", "b.record", "b.js", REAL_JLINT="")
        self.assertEqual(ran.status, 2, ran)
        self.assertEqual(self.jl("cover", "--record", "absent", "b.js").status, 2)
        self.assertEqual(self.jl("cover", "--record", "b.record", "b.js", "a.js").status, 2)

    def test_a_run_that_ends_early_is_noted(self) -> None:
        self.write("thrown.js", "var a = 1;\nthrow a;\na = 2;\n")
        ran = self.jl("cover", "thrown.js")
        self.assertEqual(ran.status, 0)
        self.assertIn("DA:2,1\nDA:3,0\n", ran.out)
        self.assertIn("thrown.js: the script threw what nothing caught", ran.err)

    def test_scripts_that_are_refused(self) -> None:
        self.write("new.js", "let a = 1;")
        ran = self.jl("cover", "new.js", "a.js")
        self.assertEqual(ran.status, 2)
        self.assertIn("new.js: it is not accepted at 1:5: `let` is of ES2015", ran.err)
        self.assertIn("FNF:4", ran.out)


class OldProgram(FrontCase):
    def test_a_program_without_record(self) -> None:
        self.program = os.path.join(self.folder, self.write("old", "#!/bin/sh\necho 'jlint: bad words'\nexit 2\n"))
        os.chmod(self.program, 0o755)
        self.write("a.js", "")
        ran = self.jl("cover", "a.js")
        self.assertEqual(ran.status, 2)
        self.assertIn("has no command `record`", ran.err)


if __name__ == "__main__":
    unittest.main()
