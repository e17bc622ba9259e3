"""Tests of what `make wrong-bodies` counts, with a stand-in for `rt`."""

import os
import re
import shutil
import subprocess

import support
from support import ToolCase

# Proves a crate at the first check. Says of it what its sources say from then on, and of each edit
# that it tries alone what the last line there says; writes down what it tries.
RT = b"""#!/bin/sh
[ "$1" = version ] && exit
if [ "$1" = check ]; then
    [ -e proved ] || { touch proved; exit 0; }
    echo "$(basename "$PWD")/check" >> "$(dirname "$0")/tried"
    grep -l "no source" src/*.rt | sed 's/$/:1:2: error[syntax]: no source/' | grep . ||
        sed -n 's/^ *says //p' src/*.rt | tr '|' '\\n'
    exit 1
fi
[ -e crates/$2/proved ] || exit 2
for edit in crates/$2/must-fail/*.edit; do
    echo "rt: must-fail $2/$(basename $edit): $(tail -n 1 $edit)"
    echo "$2/$(basename $edit .edit)" >> "$(dirname "$0")/tried"
done
"""

# Sources that have what the prover says of each function in its body.
FUNCTION = """
pub fn NAME(
    octet: u8,
) -> u8
    ensures of_NAME { result ≡ octet }
{
    says fn a::NAME: proved

    no error in NAME
}
"""
METHOD = """impl<T: Into<u8>> fmt::Display for Kind<T> {
    fn show(&self) {
        says fn a::kind::KindDisplay::show: proved
    }
}
"""
SOURCES = {
    "a/src/lib.rt": "".join([
        "const ONE: u8 = 1;\n",
        *(FUNCTION.replace("NAME", name) for name in ("one", "two", "three")),
    ]).encode(),
    "a/src/kind.rt": METHOD.encode(),
    "a/specs/Lib.antt": b"one = 1\n",
}
NO_PROOF = "no proof: expected answers in ./proofs/Answers.antt; `search` did not prove `returns`"
CALLS = "it calls `a::one`, which is not proved"
GONE = "`returns`: record `After-one` has no field `two`"


def edit(function, state, error=None, alone=""):
    """An edit after which the prover says something else of a function, and of its proof files;
    and what it says where that is tried alone."""
    lines = [f"old: says fn a::{function}: proved", f"new: says fn a::{function}: {state}"]
    if error:
        lines += [
            f"old: no error in {function}",
            f"new: says ./proofs/{function}/Answers.antt:1:2: error: {error}",
        ]
    return "\n".join([*lines, *filter(None, [alone])])


class WrongBodies(ToolCase):
    def setUp(self):
        super().setUp()
        self.file("crates.txt", b"# lowest first\na: thiserror\nb: a\nc: a b\n")
        self.file("HANDLES", b"Handles allowed: none.\n")
        self.edits = {}
        os.makedirs(f"{self.folder}/.ci")
        shutil.copy(f"{support.ROOT}/.ci/wrong_bodies", f"{self.folder}/.ci")
        os.makedirs(f"{self.folder}/tests")
        shutil.copy(f"{support.ROOT}/tests/edits.py", f"{self.folder}/tests")

    def ran(self, names=(), rt=RT):
        """What the script did, in the repository of `setUp`."""
        os.chmod(self.file("rt", rt), 0o755)
        environment = dict(os.environ, PATH=f"{self.folder}:{os.environ['PATH']}")
        return subprocess.run(
            [f"{self.folder}/.ci/wrong_bodies", *names],
            env=environment,
            capture_output=True,
            text=True,
        )

    def given(self, edits):
        """Writes files into crates/."""
        for name, text in edits.items():
            os.makedirs(os.path.dirname(f"{self.folder}/crates/{name}"), exist_ok=True)
            self.file(f"crates/{name}", text)

    def given_edits(self, edits):
        """Writes edits, beside those that were given before, each by its crate and its name; of
        src/FILE.rt, where none says another file."""
        self.edits |= edits
        files = {}
        for name, text in self.edits.items():
            crate, file, function, what = re.fullmatch(r"(\w+)/(\w+)\.(\w+)\.(\w+)", name).groups()
            first, rest = re.fullmatch(r"(?:(file: \S+)\n)?(.*)", text, re.DOTALL).groups()
            files.setdefault(
                f"{crate}/wrong-bodies/{file}.edits", [first or f"file: src/{file}.rt"]
            ).append(f"{function}.{what}\n{rest}")
        self.given({name: ("\n\n".join(parts) + "\n").encode() for name, parts in files.items()})

    def tried(self, edits, names=(), rt=RT):
        """The status and the last line, in a repository of these edits."""
        self.given_edits(edits)
        ran = self.ran(names, rt)
        return ran.returncode, (ran.stdout or ran.stderr).rstrip("\n").split("\n")[-1]

    def anew(self):
        """The edits that were tried since this was last asked, sorted."""
        path = f"{self.folder}/tried"
        if not os.path.exists(path):
            return []
        with open(path) as file:
            names = sorted(file.read().split())
        os.remove(path)
        return names

    def test_all_are_refused(self):
        edits = {"a/lib.ONE.1": "refused, as it must be", "b/lib.ONE.1": "refused, as it must be"}
        self.given({"c/must-fail/lib.ONE.1.edit": b""})
        self.assertEqual(self.tried(edits), (0, "2 refused, 0 not refused"))

    def test_one_is_proved(self):
        edits = {"a/lib.ONE.1": "NOT REFUSED", "a/lib.ONE.2": "refused, as it must be"}
        self.assertEqual(self.tried(edits), (1, "1 refused, 1 not refused"))

    def test_of_one_crate(self):
        edits = {"a/lib.ONE.1": "NOT REFUSED", "b/lib.ONE.1": "refused, as it must be"}
        self.assertEqual(self.tried(edits, ["b"]), (0, "1 refused, 0 not refused"))

    def test_no_such_crate(self):
        self.assertEqual(self.tried({"a/lib.ONE.1": ""}, ["d"]), (2, "There is no crate d."))

    def test_rt_stops(self):
        stops = b'#!/bin/sh\n[ "$1" = must-fail ] && exit 2\nexit 0\n'
        self.assertEqual(
            self.tried({"a/lib.ONE.1": ""}, rt=stops), (2, "0 refused, 0 not refused")
        )

    def test_a_crate_is_not_proved(self):
        edits = {"a/lib.ONE.1": "refused, as it must be", "b/lib.ONE.1": "refused, as it must be"}
        self.assertEqual(
            self.tried(edits, rt=RT.replace(b"exit 0", b'[ "${PWD##*/}" = a ]; exit')),
            (2, "1 refused, 0 not refused"),
        )
        self.assertEqual(self.anew(), ["a/lib.ONE.1"])

    def test_what_is_refused_is_kept_until_something_that_was_read_changes(self):
        self.given_edits({
            f"{name}/lib.ONE.{edit}": "refused, as it must be" for name in "abc" for edit in (1, 2)
        })
        self.given_edits({"b/lib.ONE.2": "NOT REFUSED"})
        self.assertEqual(self.ran("bc").returncode, 1)
        self.assertEqual(self.anew(), ["b/lib.ONE.1", "b/lib.ONE.2", "c/lib.ONE.1", "c/lib.ONE.2"])
        self.assertEqual(self.ran().stdout.splitlines()[-1], "5 refused, 1 not refused")
        self.assertEqual(self.anew(), ["a/lib.ONE.1", "a/lib.ONE.2", "b/lib.ONE.2"])
        self.given_edits({"b/lib.ONE.2": "refused, as it must be: another edit"})
        self.given({"c/src/lib.rt": b"a source"})
        self.assertEqual(self.ran().stdout.splitlines()[-1], "6 refused, 0 not refused")
        self.assertEqual(self.anew(), ["b/lib.ONE.2", "c/lib.ONE.1", "c/lib.ONE.2"])
        self.assertEqual((self.ran().returncode, self.anew()), (0, []))
        # A crate below: all that stands on it is tried again, and another kit tries all.
        self.given({"b/proofs/lemmas.antt": b"a proof"})
        self.assertEqual(
            (self.ran().returncode, self.anew()),
            (0, ["b/lib.ONE.1", "b/lib.ONE.2", "c/lib.ONE.1", "c/lib.ONE.2"]),
        )
        self.assertEqual(
            len((self.ran(rt=RT.replace(b"&& exit", b"&& echo 2 && exit")), self.anew())[1]), 6
        )

    def test_the_table_has_the_commits(self):
        self.given_edits({
            f"{name}/lib.ONE.{edit}": "refused, as it must be" for name in "abc" for edit in (1, 2)
        })

        def git(*words):
            names = ["-c", "user.name=x", "-c", "user.email=x@localhost"]
            done = subprocess.run(
                ["git", *names, *words],
                cwd=self.folder,
                capture_output=True,
                text=True,
                check=True,
            )
            return done.stdout.strip()

        self.assertEqual(
            self.ran("a").stdout.splitlines()[-4:],
            [
                "| a | 2 | 2 | - |",
                "| b | 2 | 0 |  |",
                "| c | 2 | 0 |  |",
                "2 refused, 0 not refused",
            ],
        )
        git("init", "-q")
        git("add", ".")
        git("commit", "-q", "-m", "First")
        commit = git("rev-parse", "--short=8", "HEAD")
        self.given_edits({"a/lib.ONE.3": "refused, as it must be: another edit"})
        self.assertEqual(
            self.ran("a").stdout.splitlines()[-4], f"| a | 3 | 3 | - (2), {commit}+ (1) |"
        )
        self.assertEqual(self.ran("b").stdout.splitlines()[-3], f"| b | 2 | 2 | {commit}+ |")

    def tried_of_a(self, edits):
        """The same of edits of crate a, by their names there."""
        self.given(SOURCES)
        return self.tried({f"a/{name}": text for name, text in edits.items()})

    def test_edits_of_different_functions_are_tried_together(self):
        show = edit("kind::KindDisplay::show", NO_PROOF)
        two = edit("two", "not proved", "`returns`: two types differ")
        edits = {
            "lib.one.1": edit("one", NO_PROOF),
            "lib.two.2": two,
            "kind.show.3": show,
            "lib.one.4": edit("one", f"{NO_PROOF}; {CALLS}"),
        }
        self.assertEqual(self.tried_of_a(edits), (0, "4 refused, 0 not refused"))
        self.assertEqual(self.anew(), ["a/check", "a/check"])

    def test_what_a_batch_leaves_open_is_tried_alone(self):
        refused, proved = (
            "refused, as it must be: `returns`",
            "NOT REFUSED: the crate is still proved with this edit",
        )
        show = edit("kind::KindDisplay::show", f"not proved; {CALLS}", alone=proved)
        three = edit("three", f"no proof: {CALLS}", alone=refused)
        edits = {
            "lib.one.1": edit("one", "proved", alone=refused),
            "lib.two.2": edit("two", NO_PROOF),
            "lib.three.3": three,
            "kind.show.4": show,
        }
        self.assertEqual(self.tried_of_a(edits), (1, "3 refused, 1 not refused"))
        self.assertEqual(self.anew(), ["a/check", "a/kind.show.4", "a/lib.one.1", "a/lib.three.3"])

    def test_what_is_refused_by_names_alone_is_named(self):
        of_two = f"{GONE}|./proofs/two/Answers.antt:3:2: error: `returns`: two types differ"
        alone = (
            "refused, as it must be (only because a proof file names what the edit took away, so "
            "this says little of the contract)"
        )
        edits = {
            "lib.one.1": edit("one", "not proved", GONE),
            "lib.two.2": edit("two", "not proved", of_two),
            "lib.three.3": edit("three", NO_PROOF, GONE),
        }
        self.assertEqual(
            self.tried_of_a(edits | {"lib.ONE.4": alone}), (0, "4 refused, 0 not refused")
        )
        said = [
            "| a | 4 | 4 | - |",
            "2 refused by names alone, to be written anew: a/lib.one.1, a/lib.ONE.4",
            "4 refused, 0 not refused",
        ]
        self.assertEqual(self.ran().stdout.splitlines()[-3:], said)

    def test_what_stands_in_a_file_that_does_not_compile_is_tried_alone(self):
        bad, show = (
            edit("one", "no source", alone="BAD EDIT: it did not reach the prover"),
            edit("kind::KindDisplay::show", NO_PROOF),
        )
        edits = {
            "lib.one.1": bad,
            "lib.two.2": edit("two", NO_PROOF, alone="refused, as it must be"),
            "kind.show.3": show,
        }
        self.assertEqual(self.tried_of_a(edits), (1, "2 refused, 1 not refused"))
        self.assertEqual(self.anew(), ["a/check", "a/check", "a/lib.one.1", "a/lib.two.2"])

    def test_what_does_not_fit_is_tried_alone(self):
        misfit = (
            edit("two", NO_PROOF) + "\nold: no error\nnew: says an error\nBAD EDIT: no such text"
        )
        self.assertEqual(self.tried_of_a({"lib.two.1": misfit}), (1, "0 refused, 1 not refused"))
        self.assertEqual(self.anew(), ["a/check", "a/lib.two.1"])

    def test_what_is_no_body_is_tried_alone(self):
        edits = {
            "lib.ONE.1": "src/lib.rt\nold: u8 = 1\nnew: u8 = 2",
            "Lib.one.2": "specs/Lib.antt\nold: one = 1\nnew: one = 2",
        }
        edits = {name: f"file: {text}\nrefused, as it must be" for name, text in edits.items()}
        both = edit(
            "one", NO_PROOF
        ) + "\nfile: specs/Lib.antt\nold: one = 1\nnew: one = 2\nrefused, as it must be"
        self.assertEqual(
            self.tried_of_a(edits | {"lib.one.3": both}), (0, "3 refused, 0 not refused")
        )
        self.assertEqual(self.anew(), ["a/Lib.one.2", "a/lib.ONE.1", "a/lib.one.3"])
