"""Refusals in sentences, places of ends, preludes, modules, source maps, and comments that switch nothing off."""

from __future__ import annotations

import base64
import json
import os
import unittest

from front.rules import TOP

from .support import FrontCase, needs_program

REGEX, NEWER = "a regular expression begins here", "transpile it to ES5 first"


@needs_program
class Refusals(FrontCase):
    def check(self, script: str, place: str, sentence: str) -> None:
        said = self.jl("-", given=script).out
        self.assertTrue(said.startswith(f"<stdin>:{place}: "), f"{script!r}: {said}")
        self.assertIn(sentence, said, script)

    def test_regular_expressions(self) -> None:
        for script, place in (
            ("var a = 1;\nx = /ab+c/g;", "2:5"),
            ("f(/\\d+/)", "1:3"),
            ("x = /'/; y = 1", "1:5"),
            ("x = a / b / c; y = /[/*]/;", "1:20"),
            ('x = /"/.test("a");\n', "1:5"),
            ("return_ = !/`/", "1:12"),
        ):
            self.check(script, place, REGEX)

    def test_newer_editions(self) -> None:
        for script, place, word in (
            ("const a = 1;", "1:1", "`const`"),
            ("let a = 1;", "1:5", "`let`"),
            ("class A { }", "1:1", "`class`"),
            ("f(a => a)", "1:5", "arrow functions"),
            ("f(`x`)", "1:3", "template literals"),
            ("import a from 'b';", "1:1", "`import`"),
            ("f(...a)", "1:3", "`...`"),
            ("x.#y", "1:3", "private names"),
        ):
            self.check(script, place, word)
            self.check(script, place, NEWER)

    def test_other_refusals(self) -> None:
        for script, place, sentence in (
            ("x = 1.5;", "1:5", "whole number"),
            ("x = 010;", "1:5", "octal"),
            ("x = 'abc", "1:5", "a string begins here"),
            ("/* abc", "1:1", "a comment begins here"),
            ("print(Date);", "1:7", "`Date` is left out"),
            ("JSON.parse(a)", "1:1", "--prelude es5"),
            ("var J$;", "1:5", "name of the hooks"),
            ("return 1;", "1:1", "--commonjs"),
            ("with (a) { }", "1:1", "`with` is left out"),
            ("function f() {", "1:15", "ends too early"),
            ("if (a) { function f() { } }", "1:10", "inside a block"),
            ("'use strict'; delete a;", "1:15", "strict code deletes a name"),
        ):
            self.check(script, place, sentence)


@needs_program
class Ends(FrontCase):
    def test_an_uncaught_throw_has_a_place(self) -> None:
        given = "function f(o) {\n  return o.a.b;\n}\nfunction g() {\n  f({});\n}\ng();\n"
        said = self.jl("-", given=given).out
        self.assertTrue(said.startswith("<stdin>:2:10: uncaught TypeError: no property of undefined"), said)
        self.assertIn("in the function at 1:1, called from that at 4:1", said)

    def test_a_throw_statement_is_the_place(self) -> None:
        self.assertIn("<stdin>:1:5: uncaught 1; the last operation was Throw 1", self.jl("-", given="    throw 1;").out)

    def test_a_fault_has_a_place(self) -> None:
        said = self.jl("-", given="var a = 7;\nvar f = function () { return a / 2; };\nf();").out
        self.assertRegex(said, r"^<stdin>:2:34: NumberOutside: .* in the function at 2:9 \[fault\]")


@needs_program
class Preludes(FrontCase):
    def test_each_is_clean_by_itself(self) -> None:
        folder = os.path.join(TOP, "preludes")
        for name in sorted(os.listdir(folder)):
            ran = self.jl(os.path.join(folder, name))
            self.assertEqual((ran.status, ran.out), (0, ""), name)

    def test_places_stay(self) -> None:
        for head in ("", "'use strict'; "):
            given = (
                f"{head}print(0 / 0);\nprint(JSON.stringify([3, 1].sort(function (a, b) {{ return a - b; }})), 0 / 0);"
            )
            for words in (
                ["--prelude", "es5"],
                ["--prelude", "es5", "--commonjs"],
                ["--prelude", "browser", "--prelude", "es5"],
            ):
                said = self.jl(*words, "-", given=given)
                places = [it.split(" ")[0] for it in said.out.splitlines()]
                self.assertEqual(places, [f"<stdin>:1:{len(head) + 7}:", "<stdin>:2:71:"], said)
                self.assertEqual(said.err, "")

    def test_strict_code_stays_strict(self) -> None:
        given = "'use strict'; (function () { if (this !== undefined) { throw 'sloppy'; } })();"
        choices: list[list[str]] = [[], ["--prelude", "es5"], ["--commonjs"], ["--prelude", "es5", "--commonjs"]]
        for words in choices:
            self.assertEqual(self.jl(*words, "-", given=given).out, "", words)
        given = "(function () { if (this === undefined) { throw 'strict'; } })();"
        self.assertEqual(self.jl("--prelude", "es5", "-", given=given).out, "")

    def test_what_es5_adds(self) -> None:
        given = """function same(a, b) { if (a !== b) { throw a; } }
var list = [5, undefined, 3, , 4];
same(list.sort(function (a, b) { return a - b; }).join(), "3,4,5,,");
same(4 in list, false);
same([21, 12, 22, 11].sort(function (a, b) { return a % 10 - b % 10; }).join(), "21,11,12,22");
same(JSON.stringify({ a: [1, "b\\n", undefined], c: undefined, d: NaN }), '{"a":[1,"b\\\\n",null],"d":null}');
same(JSON.stringify([1, { a: 2 }], null, 1), '[\\n 1,\\n {\\n  "a": 2\\n }\\n]');
same(JSON.stringify(JSON.parse(' {"a" : [1, -20, 3e2, "\\\\u0041"], "": true} ')), '{"a":[1,-20,300,"A"],"":true}');
same(JSON.parse("[1,2]", function (k, v) { return typeof v === "number" ? v + 1 : v; }).join(), "2,3");
same("abcabc".replace("b", "[$&$$$`$']"), "a[b$acabc]cabc");
same("abc".replace("b", function (found, at, text) { return found + at + text; }), "ab1abcc");
same("abc".replace("x", "y"), "abc");
same(Math.sqrt(1764), 42);
same(Math.sqrt(9007199136250225), 94906265);
same(Math.cos(0) + Math.exp(0) + Math.log(1), 2);
same((12).toFixed(2), "12.00");
same(parseFloat(" 12px"), 12);
same("a".localeCompare("b"), -1);
var thrown = 0;
["{", "[1,]", "01", "'a'", "[1] 2", ""].forEach(function (text) {
  try { JSON.parse(text); } catch (error) { thrown += error instanceof SyntaxError ? 1 : 0; }
});
same(thrown, 6);
"""
        self.assertEqual(self.jl("--prelude", "es5", "-", given=given).out, "")
        self.assertIn("NumberOutside", self.jl("--prelude", "es5", "-", given="Math.sqrt(2);").out)

    def test_modules(self) -> None:
        given = """var util = require("util"), Emitter = require("events"), assert = require("assert");
function Own() { Emitter.call(this); }
util.inherits(Own, Emitter);
var own = new Own(), seen = [];
own.on("x", function (a, b) { seen.push(a + b); });
own.once("x", function () { seen.push("once"); });
own.emit("x", 1, 2);
own.emit("x", 3, 4);
assert.strictEqual(seen.join(), "3,once,7");
assert.ok(this === module.exports && require.main === module);
"""
        self.assertEqual(self.jl("--commonjs", "-", given=given).out, "")
        said = self.jl("--commonjs", "-", given='var a = 1;\nrequire("./b");').out
        self.assertTrue(said.startswith("<stdin>:2:1: uncaught Error: Cannot find module './b'"), said)

    def test_a_browser(self) -> None:
        given = """var order = [], ticks = 0, handle;
function late() { if (order.join() !== "load,5,10,20") { throw order.join(); } }
setTimeout(function () { order.push(20); late(); }, 20);
setTimeout(function (value) { order.push(value); }, 10, 10);
handle = setInterval(function () { order.push(5); clearInterval(handle); }, 5);
window.onload = function () { order.push("load"); };
var button = document.body.appendChild(document.createElement("button"));
button.id = "go";
button.addEventListener("click", function () { ticks += 1; });
document.getElementById("go").click();
if (ticks !== 1 || document.getElementsByTagName("button").length !== 1) { throw ticks; }
"""
        ran = self.jl("--prelude", "browser", "-", given=given)
        self.assertEqual((ran.out, ran.err), ("", ""))
        said = self.jl("--prelude", "browser", "-", given="setTimeout(function () {\n  absent();\n}, 1);").out
        self.assertRegex(said, r"^<stdin>:1:12: uncaught ReferenceError")

    def test_a_prelude_that_is_refused(self) -> None:
        self.write("mine.js", "var = 1;")
        ran = self.jl("--prelude", "mine.js", "-", given="")
        self.assertEqual(ran.status, 2)
        self.assertIn("the prelude mine.js is not accepted", ran.err)
        self.assertEqual(self.jl("--prelude", "absent.js", "-", given="").status, 2)


MODERN = "class A {\n  m(x) { return x - undefined; }\n}\nnew A().m(1);\n"
OLD = "var A = function () { };\nA.prototype.m = function (x) { return x - undefined; };\nnew A().m(1);\n"
# From 2:38 on the text is made of 2:17 of the first source.
MAPPINGS = ";qCACgB"


@needs_program
class SourceMaps(FrontCase):
    def setUp(self) -> None:
        super().setUp()
        self.use_fake()
        self.map = {
            "version": 3,
            "sources": ["src/modern.js"],
            "names": [],
            "mappings": MAPPINGS,
            "sourcesContent": [MODERN],
        }

    def test_an_inline_map(self) -> None:
        inline = base64.b64encode(json.dumps(self.map).encode()).decode()
        self.write("out/a.js", f"{OLD}//# sourceMappingURL=data:application/json;charset=utf-8;base64,{inline}\n")
        ran = self.jl("-f", "json", "out/a.js")
        message = json.loads(ran.out)[0]["messages"][0]
        self.assertEqual((message["originalPath"], message["line"], message["column"]), ("out/src/modern.js", 2, 17))
        self.assertIn("m(x) { return x - undefined; }", self.jl("-f", "stylish", "out/a.js").out)

    def test_a_named_map_and_an_original_on_disk(self) -> None:
        del self.map["sourcesContent"]
        self.write("out/a.js.map", json.dumps(self.map))
        self.write("out/src/modern.js", MODERN)
        self.write("out/a.js", f"{OLD}//# sourceMappingURL=a.js.map\n")
        ran = self.jl("-f", "stylish", "out/a.js")
        self.assertIn("out/src/modern.js\n", ran.out)
        self.assertIn("  m(x) { return x - undefined; }", ran.out)

    def test_maps_that_can_not_be_used(self) -> None:
        for url in (
            "absent.map",
            "data:application/json;base64,!",
            "https://example.com/a.map",
            "data:application/json,[}",
            "data:application/json,%7B%22version%22:3,%22sources%22:[%22%5Cud800%22],"
            "%22names%22:[],%22mappings%22:%22%22%7D",
            "/dev/zero",
            "a%00.map",
        ):
            self.write("a.js", f"{OLD}//# sourceMappingURL={url}\n")
            ran = self.jl("a.js")
            self.assertEqual((ran.status, ran.out[:10]), (1, "a.js:2:39:"), url)
            self.assertIn("its source map", ran.err, url)

    def test_originals_that_can_not_be_read(self) -> None:
        del self.map["sourcesContent"]
        for source in ("absent.js", "/dev/zero", "a\0.js", "."):
            self.map["sources"] = [source]
            self.write("a.js.map", json.dumps(self.map))
            self.write("a.js", f"{OLD}//# sourceMappingURL=a.js.map\n")
            for form in ("unix", "stylish", "sarif", "html", "checkstyle"):
                ran = self.jl("-f", form, "a.js")
                self.assertEqual((ran.status, ran.err), (1, ""), (source, form))


@needs_program
class Offs(FrontCase):
    def test_comments_that_switch_nothing_off(self) -> None:
        script = """print(0 / 0); // jlint-off nan-made
print(0 / 0); // jlint-off nan-make
print(0 / 0); //jlint-off nan-made
print(0 / 0); /* jlint-off nan-made */
print(0 / 0); // jlint-off nan-made because it is meant
print(0 / 0); // jlint-off
print(1); // jlint-off nan-made
// jlint-off-next nan-made,no-radix
print(0 / 0);
print("// jlint-off nan-make");
"""
        self.write("a.js", script)
        ran = self.jl("offs", "a.js")
        self.assertEqual(ran.status, 1)
        lines = [it.split(":")[1] for it in ran.out.splitlines()]
        self.assertEqual(lines, ["2", "3", "4", "5", "6", "7", "8"])
        self.assertIn("a.js:8:1: this comment switches nothing off: no-radix does not hit on line 9", ran.out)
        self.assertEqual(len(self.jl("offs", "--forms", "a.js").out.splitlines()), 5)

    def test_a_clean_file(self) -> None:
        self.write("a.js", "print(0 / 0); // jlint-off nan-made\n")
        ran = self.jl("offs", "a.js")
        self.assertEqual((ran.status, ran.out), (0, ""))

    def test_a_script_that_is_refused(self) -> None:
        self.write("a.js", "let a; // jlint-off nan-made\n// jlint-off nan\n")
        self.assertEqual(len(self.jl("offs", "a.js").out.splitlines()), 1)


if __name__ == "__main__":
    unittest.main()
