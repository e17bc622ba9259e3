"""The crates: their READMEs, tables that are made of them, names of definitions, what each may
cite, and docs/WALK.md.

What a README says of where things stand names nothing that isn't there. A definition that stands
right in `specs/` bears the name of the source whose rule it says. Each hop of a walk is a function
of the file that it names.
"""

import os
import re
import subprocess
import unittest
from collections import defaultdict
from glob import glob

import support

CRATES = os.path.join(support.ROOT, "crates")
FOLDERS_OF_SPECS = {"laws", "rows", "code"}


def stem(path):
    """What the names of a source and of its definition share: `set_up.rt` and `SetUp.antt` have
    `setup`."""
    return os.path.splitext(os.path.basename(path))[0].replace("_", "").lower()


def crates():
    """The crates of crates.txt, but for those of tests, in their order there."""
    lines = support.read(os.path.join(support.ROOT, "crates.txt")).decode().splitlines()
    names = [
        line.partition(":")[0].split()[0]
        for line in lines
        if line.strip() and not line.startswith("#")
    ]
    return [name for name in names if not name.endswith("_tests")]


class Readmes(unittest.TestCase):
    def test_the_tables_are_those_of_the_code(self):
        done = subprocess.run(
            [os.path.join(support.ROOT, ".ci", "tables"), "--check"],
            capture_output=True,
            text=True,
        )
        self.assertEqual((done.returncode, done.stdout, done.stderr), (0, "", ""))

    def test_each_says_first_what_the_crate_is(self):
        for crate in crates():
            with self.subTest(crate):
                text = support.read("crates", crate, "README.md").decode()
                self.assertRegex(text, rf"\A# {crate}\n\n[A-Z`].*\.\n")

    def test_what_they_place_is_there(self):
        """A word of code below `Where` is a source, a definition, a file of proofs or a folder of
        its crate, or a path, or another crate."""
        for crate in crates():
            for item in support.read("crates", crate, "README.md").decode().partition(
                "\n## Where\n"
            )[2].split("\n- "):
                words = re.findall("`([^`]+)`", item)
                files = glob(os.path.join(CRATES, crate, "src", "*.rt"))
                for place in {crate}.union(words).intersection(os.listdir(CRATES)):
                    files += glob(os.path.join(CRATES, place, "*", "**", "*.antt"), recursive=True)
                names = {os.path.basename(path).removesuffix(".antt") for path in files}
                paths = (support.ROOT, CRATES)
                with self.subTest(f"{crate}: {item}"):
                    self.assertEqual(
                        [
                            word
                            for word in words
                            if word not in names
                            and not any(os.path.exists(os.path.join(path, word)) for path in paths)
                        ],
                        [],
                    )


class Lemmas(unittest.TestCase):
    """A crate is for those above it by its contracts: none cites lemmas of a lower crate, but
    these."""

    CITED = {
        ("x25_layer", "x25_handshakes"): {
            "CallLemmas", "ChannelRelation", "DeedLemmas", "EndDeeds", "HandshakeLemmas",
            "HandshakeRelation", "LayersRelation", "Meetings", "PartLemmas", "PeerCallLemmas",
            "PeerChannelLemmas", "PeerDeeds", "PeerLayerLemmas", "StageLemmas", "StretchRelation",
            "TermsLemmas", "TextLemmas", "TwoLayerRuns", "TwoPeerLemmas",
        },
        ("x25_given", "x25_packet"): {"AddressLaws", "AgainLaws", "FacilityLemmas"},
        ("x25_line", "x25_link"): {"EndLemmas"},
        ("x25_station", "x25_link"): {"FrameCount"},
        ("x25_clock", "x25_station"): {"EndsLemmas", "UnheardLemmas"},
        ("x25_world", "x25_station"): {"EndsLemmas"},
        ("x25_peer", "x25_line"): {
            "Meetings", "PeerSessionRuns", "SessionSays", "SessionSeenRuns"
        },
        ("x25_world", "x25_peer"): {"Granted", "LinkSteps", "ReadLemmas", "SessionLayers"},
        ("x25_world", "x25_line"): {
            "HealingSteps", "Lists", "Meetings", "SessionLines", "SessionsForgotten"
        },
        ("x25_sim", "x25_world"): {"Established", "WorldLemmas"},
        ("x25_joined", "x25_world"): {
            "Growing", "SessionEntries", "SessionRequests", "WorldLemmas"
        },
        ("x25_joined", "x25_peer"): {"Granted"},
        ("x25_judge", "x25_line"): {
            "StationLines", "StationPeers", "StationRuns", "StationSays", "StationSends"
        },
        ("x25_judge", "x25_possible_links"): {
            "Alike", "Covering", "Covers", "Leads", "Sends", "SetLemmas", "Stands", "StepLemmas"
        },
        ("any", "x25_io"): {
            "LineLemmas", "LooseLemmas", "RunLemmas", "TakerLemmas", "ToldLemmas"
        },
    }

    def test_none_of_a_lower_crate_is_cited(self):
        cited = defaultdict(set)
        for folder, ending in (("src", "rt"), ("specs", "antt"), ("proofs", "antt")):
            for path in glob(
                os.path.join(CRATES, "*", folder, "**", f"*.{ending}"), recursive=True
            ):
                crate = os.path.relpath(path, CRATES).split(os.sep)[0]
                text = support.read(path).decode()
                one = re.findall(r"\bRattle\.(x25\w*)\.proofs\.(?:[a-z]\w*\.)*(\w+)", text)
                some = re.findall(r"\bRattle\.(x25\w*)\.proofs\.\{(.*)\}", text)
                for low, lemmas in one + [
                    (low, name) for low, names in some for name in re.findall(r"(\w+)\.\{", names)
                ]:
                    if low != crate:
                        cited["any" if low == "x25_io" else crate, low].add(lemmas)
        self.assertEqual(cited, self.CITED)


class Stems(unittest.TestCase):
    def test_each_definition_bears_the_name_of_a_source(self):
        """So does each folder of specs/ with further definitions of that source; the others are
        those that any crate may have."""
        for crate in sorted(os.listdir(CRATES)):
            with self.subTest(crate):
                sources = {
                    stem(path)
                    for path in glob(
                        os.path.join(CRATES, crate, "src", "**", "*.rt"), recursive=True
                    )
                }
                told = {stem(path) for path in glob(os.path.join(CRATES, crate, "specs", "*"))}
                self.assertEqual(sorted(told - sources - FOLDERS_OF_SPECS - {"lib"}), [])


class Walk(unittest.TestCase):
    def test_each_hop_is_a_function_of_its_file(self):
        text = support.read(os.path.join(support.ROOT, "docs", "WALK.md")).decode()
        hops = re.findall(r"^\d+\. `(x25\w*)/(\w+\.rt)` `(\w+)`: ", text, re.MULTILINE)
        self.assertEqual(len(hops), len(re.findall(r"^\d+\. ", text, re.MULTILINE)))
        self.assertLessEqual(text.count("\n"), 110)
        for crate, file, function in hops:
            with self.subTest(f"{crate}/{file} {function}"):
                source = support.read(os.path.join(CRATES, crate, "src", file)).decode()
                self.assertRegex(source, rf"\bfn {function}\b")


if __name__ == "__main__":
    unittest.main()
