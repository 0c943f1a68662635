"""A clone with two small crates, in which `./jlint` and `.ci/run` run over a toolchain that is stood in for."""

from __future__ import annotations

import os
import shutil
import subprocess
import sys

from .support import TOP, FrontCase

PROGRAM = '#!/bin/sh\necho "ran $*"\nexit 4\n'
RT = """#!/usr/bin/env python3
import os, sys
if __name__ == "__main__":
    with open(os.environ["HOME"] + "/rt.log", "a") as log:
        log.write(" ".join(sys.argv[1:]) + "\\n")
    if sys.argv[1:] == ["version"]:
        print(os.environ.get("FAKE_KIT", "kit 1"))
    elif sys.argv[1:] == ["ci"]:
        exec(os.environ.get("FAKE_CI", ""))
        print("2 passed, 0 failed")
    else:
        sys.exit(1)
"""
"""A toolchain that keeps nothing, as some kits do. What `rt ci` does is said by FAKE_CI."""
BUILDS = "import shutil; os.makedirs('crates/jlint/out', exist_ok=True); "
BUILDS += "shutil.copy(os.environ['HOME'] + '/made', 'crates/jlint/out/jlint'); "
PROVES = f"import os, time\nopen(os.environ['HOME'] + '/rt.log', 'a').write('prove\\n')\ntime.sleep(1)\n{BUILDS}\n"
CHECKS = ("trusted", "standard", "examples", "rows", "deep_rows", "failing_devices")
PYTHON = f"""#!/bin/sh
case "$1" in {"|".join(f"tools/{name}.py" for name in CHECKS)}|-m) exit 0;; esac
exec "{sys.executable}" "$@"
"""
"""Python, but for what the gate looks at beside `rt ci`."""
COMMANDS = ("bash", "readlink", "dirname", "env", "sh", "cat")


class CloneCase(FrontCase):
    """A test with a clone in its folder, which is the home too."""

    def setUp(self) -> None:
        super().setUp()
        shutil.copytree(os.path.join(TOP, "tools"), os.path.join(self.folder, "tools"))
        shutil.copytree(os.path.join(TOP, ".ci"), os.path.join(self.folder, ".ci"))
        shutil.copy(os.path.join(TOP, "jlint"), self.folder)
        self.write("crates.txt", "low:\njlint: low\n")
        self.write("HANDLES", "Handles allowed: none.\n")
        self.write("crates/low/src/lib.rt", "// low\n")
        self.write("crates/jlint/src/main.rt", "// main\n")
        self.executable("made", PROGRAM)
        self.path = os.path.join(self.folder, "bin")
        os.makedirs(self.path)
        for name in COMMANDS:
            os.symlink(shutil.which(name) or "", os.path.join(self.path, name))
        os.symlink(sys.executable, os.path.join(self.path, "python3"))

    def executable(self, name: str, text: str) -> None:
        os.chmod(os.path.join(self.folder, self.write(name, text)), 0o755)

    def use_toolchain(self) -> None:
        """Has a clone prove by a toolchain that keeps nothing, and the gate look at nothing but what `rt ci` says."""
        self.executable("bin/rt", RT)
        os.remove(os.path.join(self.path, "python3"))
        self.executable("bin/python3", PYTHON)
        self.write("tools/prove.py", PROVES)

    def second_clone(self) -> str:
        """The folder of another clone, with the same contents."""
        other = os.path.join(self.folder, "other")
        without_built = shutil.ignore_patterns("out")
        for name in ("tools", ".ci", "crates"):
            shutil.copytree(os.path.join(self.folder, name), os.path.join(other, name), ignore=without_built)
        for name in ("jlint", "crates.txt", "HANDLES"):
            shutil.copy(os.path.join(self.folder, name), other)
        return other

    def launch(self, *words: str, clone: str = "", **environment: str) -> subprocess.CompletedProcess[str]:
        """Runs `./jlint` in a clone."""
        return self.call([os.path.join(clone or self.folder, "jlint"), *words], environment)

    def gate(self, **environment: str) -> subprocess.CompletedProcess[str]:
        """Runs `.ci/run` in the clone."""
        return self.call([os.path.join(self.folder, ".ci", "run")], {"FAKE_CI": BUILDS, **environment})

    def call(self, words: list[str], environment: dict[str, str]) -> subprocess.CompletedProcess[str]:
        around = self.environment(environment)
        return subprocess.run(words, env=around, capture_output=True, text=True, check=False, timeout=60)

    def environment(self, more: dict[str, str]) -> dict[str, str]:
        return {"PATH": self.path, "HOME": self.folder, **more}

    def proofs(self) -> list[str]:
        """What the toolchain was called for, but for its version."""
        return [it for it in self.read("rt.log").splitlines() if it != "version"]
