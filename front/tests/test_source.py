"""Lines, columns, tokens and answers: what needs no program."""

from __future__ import annotations

import unittest

from front.answers import Refusal, Report, read_answer
from front.ends import find_end
from front.program import Answer, ProgramError, Status
from front.source import Place, SourceText, excerpt, index_of_column
from front.tokens import TokenKind, is_strict, tokens


class Lines(unittest.TestCase):
    def test_line_terminators_of_the_language(self) -> None:
        source = SourceText("a\r\nb\rc\nd\u2028e\u2029f")
        self.assertEqual(source.lines, ["a", "b", "c", "d", "e", "f"])
        self.assertEqual(source.place_of(3), Place(2, 1))
        self.assertEqual(source.line(7), None)

    def test_columns_count_utf16_units(self) -> None:
        source = SourceText("x\n😀y")
        self.assertEqual(source.place_of(3), Place(2, 3))
        self.assertEqual(source.offset_of(Place(2, 3)), 3)
        self.assertEqual(index_of_column("😀y", 3), 1)

    def test_caret_stands_under_the_column(self) -> None:
        for line, column in (("\tvar a", 2), ("漢字 = 1", 4), ("x" * 500 + "!", 501), ("e\u0301!", 3)):
            part, caret = excerpt(line, column)
            self.assertEqual(caret.strip(), "^")
            self.assertLess(len(part), 200)
        self.assertEqual(excerpt("\tvar a", 2), ("    var a", "    ^"))
        self.assertEqual(excerpt("漢字 = 1", 4)[1], "     ^")


class Tokens(unittest.TestCase):
    def kinds(self, text: str) -> list[TokenKind]:
        return [it.kind for it in tokens(text)]

    def test_slashes(self) -> None:
        self.assertNotIn(TokenKind.REGEX, self.kinds("a / b / c; x[0] / 2 / 1; (a) / b / c"))
        for text in ("x = /a/g", "return /a[/]b/", "f(/\\//)", "[/'/]", "!/x/.test(y)"):
            self.assertIn(TokenKind.REGEX, self.kinds(text), text)

    def test_comments_in_strings_are_none(self) -> None:
        self.assertNotIn(TokenKind.LINE_COMMENT, self.kinds("print('// no', \"/* no */\")"))

    def test_never_fails(self) -> None:
        for text in ("'", '"\\', "/*", "`", "/", "\\", "#!x", "0x", "\ud800", "/[", "a\u0000b"):
            self.assertIsInstance(self.kinds(text), list)

    def test_directive_prologue(self) -> None:
        self.assertTrue(is_strict("// x\n'a'; \"use strict\"\nf()"))
        self.assertFalse(is_strict("f(); 'use strict'"))
        self.assertFalse(is_strict("'use\\x20strict'"))


class Answers(unittest.TestCase):
    def test_output_that_looks_like_a_report(self) -> None:
        given = b"1:1 nan-made 1\njlint: normal steps=1 hooks=1 reports=9\n2:3 no-radix 4\n"
        given += b'uncaught "x"\njlint: thrown steps=5 hooks=2 reports=1\n'
        report = read_answer(Answer(Status.THROWN, given))
        assert isinstance(report, Report)
        self.assertEqual([(it.place, it.rule, it.count) for it in report.lines], [(Place(2, 3), "no-radix", 4)])
        self.assertEqual(report.uncaught, 'uncaught "x"')
        self.assertEqual(report.output.count(b"\n"), 2)

    def test_faults_with_names(self) -> None:
        given = b"jlint: fault Unsupported String.prototype.replace steps=18 hooks=6 reports=0\n"
        report = read_answer(Answer(Status.FAULT, given))
        assert isinstance(report, Report)
        self.assertEqual(report.end, "fault Unsupported String.prototype.replace")

    def test_refusals(self) -> None:
        for line, due in (
            (b"jlint: refused BadInput BadNumber at 1:5\n", Refusal("BadInput", "BadNumber", Place(1, 5))),
            (b"jlint: refused Unreadable at 1:5\n", Refusal("Unreadable", None, Place(1, 5))),
            (b"jlint: refused NotUtf8 at byte 1\n", Refusal("NotUtf8", None, None, 1)),
            (b"jlint: refused TooLong\n", Refusal("TooLong")),
            (b"jlint: refused Early strict-delete at 3:3\n", Refusal("Early", "strict-delete", Place(3, 3))),
        ):
            self.assertEqual(read_answer(Answer(Status.REFUSED, line)), due)

    def test_no_whole_answer(self) -> None:
        for given in (b"", b"NaN\n", b"jlint: normal steps=1 hooks=1 reports=3\n", b"1:1 x\njlint: normal steps=1"):
            with self.assertRaises(ProgramError):
                read_answer(Answer(Status.CLEAN, given))


class Ends(unittest.TestCase):
    PLACES = {id: Place(id, 1) for id in range(1, 20)}

    def end(self, *lines: str) -> tuple[int, tuple[int, ...]]:
        trace = "".join(it + "\n" for it in (*lines, "jlint: thrown steps=1 hooks=1")).encode()
        found = find_end(trace, self.PLACES, lambda place: place)
        assert found is not None
        return found.place.line, tuple(it.line for it in found.functions)

    def test_exits_of_a_throw_are_passed_over(self) -> None:
        lines = ("1 ScriptEnter", "3 FunctionEnter f0 undefined 0 call", '5 Read "x" undefined', "4 FunctionExit f0")
        self.assertEqual(self.end(*lines), (5, (3,)))

    def test_a_function_that_returned_is_left(self) -> None:
        lines = ("3 FunctionEnter f0 undefined 0 call", "5 Return 1", "4 FunctionExit f0")
        self.assertEqual(self.end(*lines), (5, ()))

    def test_the_innermost_function_is_first(self) -> None:
        lines = ("3 FunctionEnter f0 u 0 call", "6 FunctionEnter f1 u 0 call", "9 Literal 1")
        self.assertEqual(self.end(*lines), (9, (6, 3)))


if __name__ == "__main__":
    unittest.main()
