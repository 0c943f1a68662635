#!/usr/bin/env python3
"""Tries the edits of `edits/`: wrong code, which the prover has to refuse.

usage: tools/edits.py [NAME..]            NAME is a crate that has a folder there; all of them where none is given
       tools/edits.py --apply [NAME..]    tries none, and says which can't be applied, since their text is not there

The edits of a crate cost the gate two more proofs of it, and those of a large crate a proof each. So the gate tries
those in `must-fail/` alone, of the two crates of rules and of jl_app, and this script tries the others: in a clone of the last commit, by
`rt must-fail`, over the libraries that a whole `rt ci` has left in this checkout, and else over libraries that it
proves first. Run it for a crate before a change of it is handed in. The status is 0 where each edit was refused,
and with `--apply` where each can be applied.
"""
import os
import shutil
import subprocess
import sys
import tempfile

from kit import rt

TOP = os.path.dirname(os.path.dirname(os.path.abspath(__file__)))
EDITS = os.path.join(TOP, 'edits')


def lay_out(clone, names):
    """Has the clone try the edits of these crates, and no others, over the libraries of this checkout."""
    for crate in os.listdir(os.path.join(clone, 'crates')):
        shutil.rmtree(os.path.join(clone, 'crates', crate, 'must-fail'), ignore_errors=True)
    for name in names:
        shutil.copytree(os.path.join(EDITS, name), os.path.join(clone, 'crates', name, 'must-fail'))
    subprocess.run([sys.executable, 'tools/borrow.py', TOP], cwd=clone, check=True, stdout=subprocess.DEVNULL)


def cannot_be_applied(names):
    """Prints each edit of these crates that can't be applied, and gives their number."""
    count = 0
    for name in names:
        for edit in sorted(os.listdir(os.path.join(EDITS, name))):
            _texts, why = rt.read_edit(os.path.join(EDITS, name, edit), os.path.join(TOP, 'crates', name))
            if why:
                print(f'{name}/{edit}: {why}')
                count += 1
    return count


def main():
    words = sys.argv[1:]
    applies_alone = '--apply' in words
    names = [it for it in words if it != '--apply'] or sorted(os.listdir(EDITS))
    missing = [name for name in names if not os.path.isdir(os.path.join(EDITS, name))]
    if missing:
        print('no edits of ' + ', '.join(missing))
        return 2
    if applies_alone:
        return 1 if cannot_be_applied(names) else 0
    with tempfile.TemporaryDirectory(prefix='jlint-edits-') as folder:
        clone = os.path.join(folder, 'repository')
        subprocess.run(['git', 'clone', '--quiet', TOP, clone], check=True)
        lay_out(clone, names)
        return subprocess.run([sys.executable, 'tools/kit.py', 'must-fail', *names], cwd=clone, check=False).returncode


if __name__ == '__main__':
    sys.exit(main())
