"""Tests of the programs where memory is refused: each allocation of some runs of `x25`, and of
`x25_refusals`, in turn."""

import collections
import contextlib
import io
import re
import shutil
import unittest

import support
import refused

PLAYER = refused.find_player()
needs_compiler = unittest.skipUnless(shutil.which("cc"), "there is no C compiler")


def said_by(function, *words):
    """What a function answers, and what it prints."""
    said = io.StringIO()
    with contextlib.redirect_stdout(said):
        return function(*words), said.getvalue()


@support.needs_program
@needs_compiler
class Refused(unittest.TestCase):
    def test_no_memory_and_a_beginning_of_the_text(self):
        differing, said = said_by(refused.run, support.PROGRAM, refused.CASES, 1)
        self.assertEqual(differing, 0, said)
        self.assertEqual(said.count("refused in turn"), len(refused.CASES))


@unittest.skipUnless(PLAYER, "the player x25_refusals isn't built")
@needs_compiler
class Played(unittest.TestCase):
    # The calls of a world that ask for memory: no other meets a refusal.
    MET = {
        "World::start",
        "World::establish",
        "World::heal",
        "World::step with something given",
        *(
            f"World::step({asked})"
            for asked in ("Accept", "Call", "Connect", "Damage", "Deliver", "Send")
        ),
        *(f"World::step({asked}) with sizes" for asked in ("Accept", "Call")),
    }

    def test_a_refused_call_changes_nothing_and_is_made_again(self):
        differing, said = said_by(refused.play, PLAYER, 1)
        self.assertEqual(differing, 0, said)
        self.assertEqual(set(re.findall(r"^  (.+): \d+ refusals$", said, re.MULTILINE)), self.MET)


class Chosen(unittest.TestCase):
    def test_the_first_and_each_kth(self):
        self.assertEqual(refused.chosen(3, 1), [1, 2, 3])
        self.assertEqual(refused.chosen(90, 40), [*range(1, 21), 40, 80])
        self.assertEqual(refused.chosen(0, 7), [])


Done = collections.namedtuple("Done", "stdout returncode stderr")


class Player:
    """A stand-in for the player, which writes this."""

    def __init__(self, *done):
        self.done = Done(*done)

    def run(self, **named):
        return self.done


class Answers(unittest.TestCase):
    WHOLE = b"-- a script\ndte up\ndce up\n"

    def answer(self, *done):
        return refused.player_answer(Player(*done), self.WHOLE, 3)

    def test_the_call_that_met_the_refusal(self):
        text = self.WHOLE.replace(b"dce", b"Link::hear refused\ndce")
        self.assertEqual(self.answer(text, 0, b""), ("Link::hear", None))
        self.assertEqual(self.answer(self.WHOLE, 0, b""), (None, None))

    def test_what_differs(self):
        twice = self.WHOLE + b"Link::hear refused\n" * 2
        for done in [
            (b"", 0, b""),
            (self.WHOLE, 1, b"it changed\n"),
            (twice, 0, b""),
            (self.WHOLE + b"x\n", 0, b""),
        ]:
            with self.subTest(done):
                name, difference = self.answer(*done)
                self.assertIsNone(name)
                self.assertTrue(difference)
