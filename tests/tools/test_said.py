"""What README.md, docs/PROOFS.md and docs/PEER.md say: each sentence has a pair in tests/said.txt,
and what carries it is there.

A sentence is carried by clauses of a function's contract, by a file of the repository, or lines of
it, or `means` what a word does or what comes below, or it says what is left `open`. What a clause
of a law asks before it holds stands in the second part of said.txt. tests/said.py lists them.
"""

import os
import re
import unittest

import support
import said
import test_documents

OTHERS = ("means", "open")


class Said(unittest.TestCase):
    @classmethod
    def setUpClass(cls):
        test_documents.Claims.setUpClass()
        cls.contracts = test_documents.Claims()
        cls.sentences, cls.pairs = said.sentences(), said.pairs()

    def test_each_sentence_has_one_pair(self):
        for document, sentence in self.sentences:
            with self.subTest(f"{document}: {sentence}"):
                self.assertEqual(
                    len([
                        words
                        for of, words, _ in self.pairs
                        if of == document and sentence.startswith(words)
                    ]),
                    1,
                )

    def test_each_pair_has_one_sentence(self):
        for document, words, lines in self.pairs:
            with self.subTest(f"{document}: {words}"):
                self.assertEqual(
                    len([
                        sentence
                        for of, sentence in self.sentences
                        if of == document and sentence.startswith(words)
                    ]),
                    1,
                )
                self.assertTrue(lines)

    def test_what_carries_them_is_there(self):
        count = 0
        for document, words, lines in self.pairs:
            for line in lines:
                with self.subTest(f"{document}: {words}: {line}"):
                    if "::" in line:
                        function, _, clauses = line.partition(": ")
                        crate, _, name = function.partition("::")
                        self.assertTrue(self.contracts.contracts[crate, name], "no such function")
                        self.assertEqual(
                            {*filter(None, clauses.split(", "))}
                            - self.contracts.clauses(crate, name),
                            set(),
                        )
                        count += 1
                    elif line not in OTHERS:
                        path, _, names = line.partition(": ")
                        self.assertTrue(
                            os.path.isfile(os.path.join(support.ROOT, path)), "no such file"
                        )
                        self.assertEqual(
                            {*filter(None, names.split(", "))}
                            - {*said.text_of(path).splitlines()},
                            set(),
                        )
        self.assertGreater(count, 120)

    def test_the_premises_are_those_of_the_definitions(self):
        """Where a law asks for more or for less, the sentences that it carries have to be read
        again."""
        _, _, stored = said.text_of("tests/said.txt").partition("\n# Premises\n")
        self.assertEqual(stored, said.table(), "python3 tests/said.py --premises writes them")

    def test_each_rule_of_a_peer_names_its_definitions(self):
        """Each stands in a file that carries the rule, and beside these is a wrong definition that
        drops it."""
        rules = [
            (names.split(", "), sentence)
            for _, sentence in self.sentences
            for names in said.DEFINED.findall(sentence)
        ]
        self.assertEqual(len(rules), 25)
        for names, sentence in rules:
            paths = [
                line.partition(": ")[0]
                for _, words, lines in self.pairs
                if sentence.startswith(words)
                for line in lines
            ]
            carried = "".join(said.text_of(path) for path in paths)
            with self.subTest(sentence):
                self.assertTrue([path for path in paths if path.endswith((".edit", ".edits"))])
                self.assertEqual(
                    {*names} - {
                        *re.findall(
                            r"^(?:abbrev pub|pub record|pub data|  pub| ) (\w+)",
                            carried,
                            re.MULTILINE,
                        )
                    },
                    set(),
                )

    def test_the_table_of_rules_is_of_the_rules(self):
        """Each row of docs/PEER.md has the sections and the definitions of its rule below."""
        text = said.text_of("docs/PEER.md")
        rows = re.findall(r"^\| (\d+) \| .* \| (.*) \| (.*) \|$", text, re.MULTILINE)
        rules = re.findall(r"^(\d+)\. (.*(?:\n {3,4}\S.*)*)", text, re.MULTILINE)
        found = {
            number: re.search(r"\((\d[^();]*); ([`\w, ]+)\)", " ".join(rule.split()))
            for number, rule in rules
        }
        self.assertEqual([number for number, *_ in rows], [str(number) for number in range(1, 26)])
        self.assertEqual(
            {number: (sections, names) for number, sections, names in rows},
            {number: (at[1], at[2]) for number, at in found.items() if at},
        )


if __name__ == "__main__":
    unittest.main()
