"""The documents: how wide their lines and how long their sentences are, that what they name is
there, and that the claims of a crate are carried by what they name.

A name is a word of code in the text, between backticks, that has a line below or two humps, or is
a path. Of a claim each word of code counts.
"""

import fnmatch
import functools
import io
import os
import re
import tokenize
import unittest
from collections import defaultdict
from glob import glob

import support

import english
from x25tools.command import COMMANDS

WIDTH = 100
# How many words a sentence has at most.
WORDS = 25
CRATES = os.path.join(support.ROOT, "crates")
# What is named and stands elsewhere: what commands leave behind, the sources of Linux, what
# whoever races decoders has.
ELSEWHERE = ("build/*", "out/*", "/*", "../x25_*", "net/*", "AnswersOffered.antt")
# What a name may be part of: FILE.FUNCTION.what.edit, SUBJECT/FILE.cases, crates/NAME/README.md,
# NAME_tests.
HOLDERS = re.compile(r"NAME|SUBJECT|CRATE|FILE|FUNCTION|\bwhat\b")
ENDINGS = (
    "rt", "antt", "md", "py", "sh", "c", "h", "txt", "svg", "edit", "edits", "case", "script",
    "trace", "gz", "bash",
)
OF_TESTS = ("x25_embed", "x25_refusals")


@functools.cache
def text_of(*path):
    return support.read(*path).decode()


@functools.cache
def documents():
    """The paths of all documents, from the root on."""
    patterns = (
        "*.md", "docs/*.md", "crates/*/README.md", "interop/*.md", "examples/*/*.md", "tests/*.md"
    )
    return sorted(
        os.path.relpath(path, support.ROOT)
        for pattern in patterns
        for path in glob(os.path.join(support.ROOT, pattern))
    )


@functools.cache
def files():
    """The paths of all files of the repository but for what was built, from the root on."""
    found = []
    for folder, folders, names in os.walk(support.ROOT):
        at = os.path.relpath(folder, support.ROOT)
        folders[:] = [
            name
            for name in folders
            if name not in (".git", "out", "__pycache__", ".mypy_cache")
            and not (at == "." and name == "build")
        ]
        found += (os.path.normpath(os.path.join(at, name)) for name in names)
    return found


def code_of(text):
    """The words of code of a text between backticks, without its examples."""
    text = re.sub(r"^```.*?^```$", "", text, flags=re.MULTILINE | re.DOTALL)
    return [
        re.sub(r"\s+", " ", code)
        for code in re.findall(
            r"`([^`]+)`", re.sub(r"^    [^\s-].*$", "", text, flags=re.MULTILINE)
        )
    ]


def is_path(code):
    return (
        re.fullmatch(r"[\w./*-]+", code)
        and ("/" in code or "." in code and code.rpartition(".")[2] in ENDINGS)
    )


class Form(unittest.TestCase):
    def test_no_line_is_wider(self):
        """But for examples, which are as the program writes them, and rows of tables."""
        for document in documents():
            lines = enumerate(text_of(document).splitlines(), 1)
            wide = [
                str(number)
                for number, line in lines
                if len(line) > WIDTH and not line.startswith(("    ", "|"))
            ]
            with self.subTest(document):
                self.assertEqual(" ".join(wide), "")

    def test_decisions_are_numbered(self):
        numbers = [
            int(number)
            for number in re.findall(r"^(\d+)\. ", text_of("docs/DECISIONS.md"), re.MULTILINE)
        ]
        self.assertEqual(numbers, [*range(1, len(numbers) + 1)])

    def test_each_link_leads_to_a_file(self):
        for document in documents():
            for link in re.findall(r"\]\(([^)#:]+)\)", text_of(document)):
                with self.subTest(f"{document}: {link}"):
                    self.assertTrue(
                        os.path.exists(os.path.join(support.ROOT, os.path.dirname(document), link))
                    )


class English(unittest.TestCase):
    """Sentences are short, and 'behind' is no word of time."""

    # Those that have whole numbers behind the N(S) and N(R) of frames.
    WITH_NUMBERS = ("crates/x25_line/README.md", "crates/x25_world/README.md")

    def texts(self, *left_out):
        for document in documents():
            if document not in left_out:
                yield document, text_of(document)

    def test_sentences_have_few_words(self):
        for document, text in self.texts():
            _, _, (most, line, worst) = english.measure(text)
            with self.subTest(document):
                self.assertLessEqual(most, WORDS, f"line {line}: {worst}")

    # What is behind something else as a man is in a queue.
    IN_PLACE = re.compile(
        r"\b(?:fell|far|stations|commands?(?:\{.*?\})?|leave) behind\b|\bbehind (?:a pipe|the "
        r"other|the next one|`0`)|is behind it"
    )

    def test_what_comes_later_comes_after(self):
        """In documents, but what the program tells there, in the header for C, and in comments and
        texts of Python."""
        told = re.compile(r"^    [<>] .*$", re.MULTILINE)
        texts = {path: told.sub("", text) for path, text in self.texts(*self.WITH_NUMBERS)}
        texts |= {"include/x25.h": text_of("include/x25.h")}
        own = os.path.basename(__file__)
        scripts = (it for it in files() if it.endswith(".py") and os.path.basename(it) != own)
        for path in (it for it in scripts if "behind" in text_of(it).lower()):
            tokens = tokenize.generate_tokens(io.StringIO(text_of(path)).readline)
            texts[path] = "\n".join(
                token.string
                for token in tokens
                if token.type in (tokenize.COMMENT, tokenize.STRING)
            )
        for path, text in texts.items():
            with self.subTest(path):
                self.assertEqual(
                    re.findall(
                        r"[^.\n]*(?<!')\b[Bb]ehind\b[^.\n]*",
                        self.IN_PLACE.sub(
                            "",
                            re.sub(
                                "`[^`]*`", lambda code: code[0] if code[0] == "`0`" else "", text
                            ),
                        ),
                    ),
                    [],
                )


class Names(unittest.TestCase):
    @classmethod
    def setUpClass(cls):
        sources = [
            path
            for path in files()
            if path.rpartition(".")[2] in ("rt", "antt", "py", "c", "h", "txt", "bash")
            or path == "Makefile"
        ]
        cls.words = {word for path in sources for word in re.findall(r"\w+", text_of(path))}
        cls.words |= {os.path.splitext(os.path.basename(path))[0] for path in files()}
        cls.words |= support.names_of_edits()

    def test_each_path_is_there(self):
        """At the root, or within a folder; of a source its crate may be told without `src`."""
        folders = {path[: at.end()] for path in files() for at in re.finditer("/", path)}
        paths = {f"/{path}" for path in folders.union(files())} | {
            f"/{path}".replace("/src/", "/", 1) for path in files()
        }
        ends = {path[at.start() :] for path in paths for at in re.finditer("/(?=.)", path)}
        for document in documents():
            for code in filter(is_path, code_of(text_of(document))):
                patterns = [f"/{HOLDERS.sub('*', code)}", f"/{HOLDERS.sub('*', code)}/"]
                if not any(fnmatch.fnmatch(code, other) for other in ELSEWHERE):
                    with self.subTest(f"{document}: {code}"):
                        self.assertTrue(
                            any(
                                pattern in ends or "*" in pattern and fnmatch.filter(ends, pattern)
                                for pattern in patterns
                            )
                        )

    def test_each_name_is_there(self):
        for document in documents():
            for code in code_of(text_of(document)):
                if not is_path(code):
                    for word in re.findall(r"\w+(?!\w*\*)", HOLDERS.sub("x25_link", code)):
                        if "_" in word.strip("_") or re.search(r"[a-z][A-Z]", word):
                            with self.subTest(f"{document}: {code}"):
                                self.assertIn(word, self.words)

    def test_each_method_is_there(self):
        """What is named as `Type::function` is a function of that type or trait."""
        methods = defaultdict(set)
        for path in (
            path for path in files() if path.startswith("crates/") and path.endswith(".rt")
        ):
            for found in re.finditer(
                r"^(?:pub )?(?:trait (\w+)|impl\b[^{]*?(\w+)(?:<[^{}]*>)? \{).*?^\}",
                text_of(path),
                re.MULTILINE | re.DOTALL,
            ):
                methods[found[1] or found[2]].update(re.findall(r"\bfn (\w+)", found[0]))
        for document in documents():
            for kind, method in re.findall(r"\b([A-Z]\w+)::([a-z]\w*)\b(?!::)", text_of(document)):
                with self.subTest(f"{document}: {kind}::{method}"):
                    self.assertIn(method, methods[kind])

    def test_each_target_of_make_is_there(self):
        makefile = text_of("Makefile")
        for document in documents():
            for target in re.findall(r"(?:`|^    )make ([\w-]+)", text_of(document), re.MULTILINE):
                with self.subTest(f"{document}: {target}"):
                    self.assertRegex(makefile, rf"(?m)^{target}:")


class Commands(unittest.TestCase):
    """Commands, in examples and in the text, have words that are there."""

    @classmethod
    def setUpClass(cls):
        cls.commands = {
            document: re.findall(r"^    .*$", text_of(document), re.MULTILINE)
            + code_of(text_of(document))
            for document in documents()
        }

    def check(self, pattern, known):
        for document, commands in self.commands.items():
            for command in commands:
                for word in re.findall(pattern, command):
                    with self.subTest(f"{document}: {command}"):
                        self.assertIn(word, known)

    def test_each_task_of_the_program_is_there(self):
        tasks = re.findall(
            r'Command::\w+ => "([a-z]+)"', text_of("crates", "x25_settings", "src", "options.rt")
        )
        self.assertGreater(len(tasks), 5)
        self.check(r"(?<![\w/.-])x25 ([a-z]+)\b", {*tasks, *COMMANDS, "help"})

    def test_each_option_is_there(self):
        sources = [
            path
            for path in files()
            if path.endswith(".py")
            or path.startswith(".ci/")
            or path.endswith("x25_settings/src/options.rt")
        ]
        words = r"--([a-z][\w-]+)"
        known = {option for path in sources for option in re.findall(words, text_of(path))}
        self.check(
            r"(?<![\w-])--([a-z][\w-]+)",
            known
            | {"version", "help", "test", "only", "start", "generated", "no-install-recommends"},
        )

    def test_each_script_is_there(self):
        self.check(
            r"(?<![\w/.])((?:tools|tests|bench|interop)/[\w/]+\.(?:py|sh)|\.ci/\w+)", set(files())
        )


def claims_of(crate):
    """What carries the claims of a crate: the lines below each claim."""
    return re.findall(r"^  - (.*)$", re.sub(r"\n +(?=[^ -])", " ", proved_of(crate)), re.MULTILINE)


def proved_of(crate):
    """What the README of a crate says of what is proved."""
    return text_of("crates", crate, "README.md").partition("\n## What is proved\n")[2].partition(
        "\n## Where\n"
    )[0]


class Claims(unittest.TestCase):
    """Each name below a claim is one of its crate or of one that it stands on; each clause is one
    of the function before it."""

    @classmethod
    def setUpClass(cls):
        lines = [
            line.partition(":")
            for line in text_of("crates.txt").splitlines()
            if line.strip() and not line.startswith("#")
        ]
        cls.below = {
            name.split()[0]: low.split()
            for name, _, low in lines
            if not name.endswith("_tests") and name not in OF_TESTS
        }
        cls.words, cls.contracts, cls.fields, cls.definitions = (
            defaultdict(set), defaultdict(str), defaultdict(set), defaultdict(set)
        )
        for crate in cls.below:
            for folder, ending in (("src", "rt"), ("specs", "antt"), ("proofs", "antt")):
                for path in glob(
                    os.path.join(CRATES, crate, folder, "**", f"*.{ending}"), recursive=True
                ):
                    text = text_of(path)
                    cls.words[crate] |= {
                        *re.findall(r"\w+", text), os.path.splitext(os.path.basename(path))[0]
                    }
                    if folder == "src":
                        cls.add_contracts(crate, text)
                    elif folder == "specs":
                        cls.add_definitions(text)

    @classmethod
    def add_contracts(cls, crate, text):
        """Adds the contract of each function, of each trait and of the functions of each type."""
        for found in re.finditer(r"\bfn (\w+)", text):
            cls.contracts[crate, found[1]] += re.split(
                r"\n\s*\{|;\n|\{\}| \{\n", text[found.start() :], maxsplit=1
            )[0]
        for found in re.finditer(
            r"^(?:pub )?(?:trait (\w+)|impl\b.*?(\w+)(?:<[^{}]*>)? \{).*?^\}",
            text,
            re.MULTILINE | re.DOTALL,
        ):
            cls.contracts[crate, found[1] or found[2]] += found[0]

    @classmethod
    def add_definitions(cls, text):
        """Adds each definition: the fields of a record, and the words of all."""
        for part in re.split(r"\n(?=(?:pub |abbrev |record |data |use |--))", text):
            if found := re.match(r"(?:pub )?(?:abbrev|record|data)(?: pub)? (\w+)", part):
                cls.fields[found[1]] |= set(re.findall(r"^ +(?:pub )?(\w+) :", part, re.MULTILINE))
                cls.definitions[found[1]] |= set(re.findall(r"\b[A-Z]\w+", part))

    def clauses(self, crate, name):
        """The clauses of a function, and the fields of the records that they lead to."""
        contract = "".join(self.contracts[low, name] for low in (crate, *self.below[crate]))
        found = {
            clause for clauses in re.findall(
                r"\b(?:ensures|requires)\*? (\w+)|\bghost (\w+)|\bfn (\w+)", contract
            ) for clause in clauses
        }
        seen, new = set(), {name, *re.findall(r"\b[A-Z]\w+", contract)}
        for _ in range(5):
            seen |= new
            found = found.union(*(self.fields.get(word, ()) for word in new))
            new = {word for other in new for word in self.definitions.get(other, ())} - seen
        return found | seen

    def test_each_crate_has_some(self):
        proofs = text_of("docs", "PROOFS.md")
        for crate in self.below:
            with self.subTest(crate):
                self.assertIn(f"](../crates/{crate}/README.md)", proofs)
                self.assertTrue(claims_of(crate))
                self.assertEqual([line for line in claims_of(crate) if "`" not in line], [])

    def test_each_name_is_of_its_crate(self):
        for crate, below in self.below.items():
            known = self.words[crate].union(self.below, *(self.words[low] for low in below))
            for line in claims_of(crate):
                with self.subTest(f"{crate}: {line}"):
                    self.assertEqual(
                        {
                            word
                            for code in re.findall("`([^`]+)`", line)
                            for word in re.findall(r"[A-Za-z]\w*", code)
                        } - known,
                        set(),
                    )

    def test_each_clause_is_of_its_function(self):
        count = 0
        for crate in self.below:
            for line in claims_of(crate):
                for heads, tail in re.findall(
                    r"((?:`[\w:]+`(?:, | and )?)+): ((?:`\w+`(?:, and |, of it |, | and |))+)",
                    line,
                ):
                    known = set().union(
                        *(
                            self.clauses(crate, head.split("::")[-1])
                            for head in re.findall("`([^`]+)`", heads)
                        )
                    )
                    with self.subTest(f"{crate}: {heads}: {tail}"):
                        self.assertEqual(set(re.findall(r"`(\w+)`", tail)) - known, set())
                        count += 1
        self.assertGreater(count, 200)

    def test_each_clause_that_excludes_a_bug_is_of_its_function(self):
        """docs/BUGS.md cites functions of all crates, and their clauses."""
        count = 0
        for line in re.findall(
            r"^  - (.*)$", re.sub(r"\n +(?=[^ -])", " ", text_of("docs", "BUGS.md")), re.MULTILINE
        ):
            for heads, tail in re.findall(
                r"((?:`[\w:]+`(?:, | and )?)+): ((?:`\w+`(?:, of it |, and |, | and |))+)", line
            ):
                names = [head.split("::")[-1] for head in re.findall("`([^`]+)`", heads)]
                known = set().union(
                    *(
                        self.clauses(crate, name)
                        for name in names
                        for crate in self.below
                        if self.contracts[crate, name]
                    )
                )
                with self.subTest(f"{heads}: {tail}"):
                    self.assertEqual(set(re.findall(r"`(\w+)`", tail)) - known, set())
                    count += 1
        self.assertGreater(count, 15)

    def test_each_law_is_claimed(self):
        """A law is a public function that takes nothing and answers nothing, by a contract."""
        for crate in self.below:
            laws = {
                law
                for path in glob(os.path.join(CRATES, crate, "src", "*.rt"))
                for law in re.findall(
                    r"^pub fn (\w+)\(\)\n    ensures", text_of(path), re.MULTILINE
                )
            }
            claimed = set(re.findall(r"\w+", " ".join(code_of(proved_of(crate)))))
            with self.subTest(crate):
                self.assertEqual(laws - claimed, set())


class Rest(unittest.TestCase):
    def test_on_what_the_proofs_rest(self):
        """docs/PROOFS.md names the crates of the kit that crates.txt lists, and no others."""
        listed = {
            low
            for line in text_of("crates.txt").splitlines()
            if not line.startswith("#")
            for low in line.partition(":")[2].split()
        }
        named = re.search(r"the\s+kit's\s+crates\s\(([^)]*)\)", text_of("docs", "PROOFS.md"))[1]
        self.assertEqual(
            set(re.findall("`([^`]*)`", named)),
            {low for low in listed if not low.startswith("x25_")},
        )


class Shown(unittest.TestCase):
    def test_what_a_reader_is_shown_stands_so(self):
        """docs/READING.md shows parts of files of x25_frame, but for where their lines end; each
        path before a part, each clause within its file."""
        text = text_of("docs", "READING.md")
        shown = re.findall(
            r"`([\w/]+\.(?:rt|antt))`:\n\n```\n(.*?)^```$", text, re.MULTILINE | re.DOTALL
        )
        self.assertEqual(len(shown), text.count("\n```\n") // 2)
        shown += [
            ("src/spelling.rt", clause)
            for clause in re.findall(r"`([^`]*\.new\.items ≡ [^`]*)`", text)
        ]
        for path, parts in shown:
            for part in parts.split("\n\n"):
                with self.subTest(part):
                    self.assertIn(
                        " ".join(part.split()),
                        " ".join(text_of("crates", "x25_frame", path).split()),
                    )


class Theorem(unittest.TestCase):
    def test_it_is_shown_as_it_stands(self):
        """docs/PROOFS.md shows two definitions of the claims, but for where their lines end."""
        claims = " ".join(text_of("crates", "x25_world", "specs", "laws", "Claims.antt").split())
        shown = re.search(
            r"^```\n(.*?)^```$", text_of("docs", "PROOFS.md"), re.MULTILINE | re.DOTALL
        )[1]
        for definition in (part for part in shown.split("\n\n") if ":" in part):
            self.assertIn(" ".join(definition.split()), claims)

    def test_how_many_lines_its_files_have(self):
        text = text_of("docs/PROOFS.md")
        files = re.findall(r"^\d\. `(\w+)` of `(\w+)`: ", text, re.MULTILINE)
        found = [
            path
            for name, crate in files
            for path in glob(f"{CRATES}/{crate}/specs/**/{name}.antt", recursive=True)
        ]
        self.assertEqual((len(files), len(found)), (4, 4))
        lines = sum(text_of(path).count("\n") for path in found)
        self.assertIn(f"They are {lines} lines", " ".join(text.split()))


if __name__ == "__main__":
    unittest.main()
