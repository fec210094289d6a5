"""Tests of which crates are built next, and with how many jobs."""

import unittest
from collections.abc import Mapping

from wrapper.jobs import LARGE, SMALL, Limits, chains, chosen, memory_of, niceness

GB = 10**9


class Chains(unittest.TestCase):
    """The heaviest chain from a crate upwards."""

    def test_the_heavier_of_two_ways_up_counts(self) -> None:
        crates: dict[str, list[str]] = {
            "low": [], "thin": ["low"], "thick": ["low"], "top": ["thin", "thick"], "aside": ["low"],
        }
        weights = {"low": 1, "thin": 10, "thick": 100, "top": 1_000, "aside": 5}
        longest = {"low": 1_101, "thin": 1_010, "thick": 1_100, "top": 1_000, "aside": 5}
        self.assertEqual(chains(crates, weights), longest)


class Chosen(unittest.TestCase):
    """What begins when."""

    chain = {"a": 30, "b": 20, "c": 10, "d": 5}

    def chosen(
        self, ready: str, running: Mapping[str, int] | None = None, processors: int = 4, memory: int = 100 * GB,
        need: int = SMALL, jobs: int = 4,
    ) -> dict[str, int]:
        """What begins of these where each takes so much memory."""
        return chosen(ready, running or {}, Limits(processors, memory, jobs), self.chain, dict.fromkeys("abcd", need))

    def test_the_heaviest_chain_comes_first(self) -> None:
        self.assertEqual(list(self.chosen("cba", processors=1)), ["a", "b"])

    def test_one_alone_gets_all_processors(self) -> None:
        self.assertEqual(self.chosen("b"), {"b": 4})
        self.assertEqual(self.chosen("b", processors=1), {"b": 1})

    def test_each_gets_what_no_other_wants(self) -> None:
        self.assertEqual(self.chosen("bc"), {"b": 3, "c": 1})
        self.assertEqual(self.chosen("c", {"a": 1}), {"c": 3})

    def test_two_are_for_the_heaviest_chain_and_one_for_others(self) -> None:
        self.assertEqual(self.chosen("abc", processors=3), {"a": 2, "b": 1, "c": 1})
        self.assertEqual(self.chosen("c", {"a": 2, "b": 2}), {"c": 1})
        self.assertEqual(self.chosen("abc", {"d": 1}), {"a": 2, "b": 1, "c": 1})

    def test_a_chain_that_is_nearly_the_heaviest_counts_as_such(self) -> None:
        heavy = {"a": 30, "b": 27, "c": 26}
        begin = chosen("abc", {"d": 1}, Limits(4, 100 * GB, 4), {**heavy, "d": 1}, dict.fromkeys("abcd", SMALL))
        self.assertEqual(begin, {"a": 2, "b": 2, "c": 1})

    def test_there_are_at_most_twice_as_many_jobs_as_processors(self) -> None:
        self.assertEqual(self.chosen("abc", processors=2), {"a": 2, "b": 1, "c": 1})
        self.assertEqual(self.chosen("bc", {"a": 2, "d": 1}, processors=2), {"b": 1})
        self.assertEqual(self.chosen("c", {"a": 4, "b": 4}), {})

    def test_none_gets_more_than_its_call_takes(self) -> None:
        self.assertEqual(self.chosen("b", jobs=2), {"b": 2})
        self.assertEqual(self.chosen("b", jobs=1), {"b": 1})

    def test_no_more_begins_than_memory_is_there_for(self) -> None:
        self.assertEqual(self.chosen("abc", memory=8 * GB, need=LARGE), {"a": 2, "b": 1})
        self.assertEqual(self.chosen("a", memory=7 * GB, need=LARGE), {"a": 3})
        self.assertEqual(self.chosen("b", {"a": 3}, memory=7 * GB, need=LARGE), {})

    def test_one_begins_however_little_memory_there_is(self) -> None:
        self.assertEqual(self.chosen("ab", memory=1, need=LARGE), {"a": 1})

    def test_nothing_begins_where_nothing_is_ready(self) -> None:
        self.assertEqual(self.chosen(""), {})

    def test_the_lighter_a_chain_the_further_it_yields(self) -> None:
        self.assertEqual([niceness(chain, 100) for chain in (100, 95, 50, 0)], [0, 1, 10, 19])
        self.assertEqual(niceness(0, 0), 0)

    def test_a_crate_is_large_by_its_code_or_its_proofs(self) -> None:
        sizes = [(1_000, 3_000), (1_001, 0), (0, 3_001)]
        self.assertEqual([memory_of(*size) for size in sizes], [SMALL, LARGE, LARGE])


if __name__ == "__main__":
    unittest.main()
