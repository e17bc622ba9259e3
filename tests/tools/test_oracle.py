"""Random traces judged: no break of a rule is missed and no innocent end accused, by an oracle."""

import unittest

import support
from support import PROGRAM

import again_runs
import link_runs
import midst_runs
import odd_runs
import order_runs
import rules_runs

# In the gate; `make judge-runs` plays 10,000 of each of the first two, 5,000, 3,600 and 2,500.
AGAIN_RUNS, LINK_RUNS, ODD_RUNS = support.runs(300), support.runs(200), support.runs(100)
ORDER_RUNS, RULES_RUNS = support.runs(20), support.runs(75)
MIDST_RUNS = support.runs(200)


class Oracle(unittest.TestCase):
    def none_is_wrong(self, play, count, broken, more=()):
        played = [play(PROGRAM, seed) for seed in (*range(count), *more)]
        self.assertEqual([line for run in played for line in run.wrong], [])
        self.assertGreaterEqual(
            sum(run.broken for run in played), broken * sum(run.tapes for run in played)
        )

    @support.needs_program
    def test_of_one_end_of_the_link(self):
        self.none_is_wrong(link_runs.play, LINK_RUNS, 2 / 3)

    @support.needs_program
    def test_of_ends_that_ask_again(self):
        self.none_is_wrong(again_runs.play, AGAIN_RUNS, 0)

    @support.needs_station
    def test_of_a_station_beside_an_odd_end(self):
        self.none_is_wrong(odd_runs.play, ODD_RUNS, 2 / 3)

    @support.needs_program
    def test_of_two_stations_with_one_frame_changed(self):
        self.none_is_wrong(order_runs.play, ORDER_RUNS, 1 / 3)

    @support.needs_program
    def test_of_short_tapes(self):
        self.none_is_wrong(rules_runs.play, RULES_RUNS, 1 / 3, rules_runs.ONCE_WRONG)


class Midst(unittest.TestCase):
    @support.needs_program
    def test_links_are_taken_up(self):
        """Of two ends that keep the rules nothing is told, and of nine tenths of wrong numbers."""
        played = [midst_runs.play(PROGRAM, seed) for seed in range(MIDST_RUNS)]
        self.assertEqual([text for run in played for text in run.wrong], [])
        self.assertGreater(sum(run.up for run in played), MIDST_RUNS // 2)
        told, broken = (sum(run[it] for run in played) for it in (2, 1))
        self.assertGreaterEqual(told, 0.9 * broken)


if __name__ == "__main__":
    unittest.main()
