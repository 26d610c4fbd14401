"""Parts of a text that are read by themselves and joined."""
import functools
import pickle
import random
import unittest

import jx

from .test_texts import BUFFERS, lines


def parts(text, cuts, depth=jx.DEPTH_DEFAULT, told=True):
    ends = [*sorted(cuts), len(text)]
    starts = [0, *ends[:-1]]
    return [jx.Run(text[start:end], start if told else None, depth=depth) for start, end in zip(starts, ends)]


class Runs(unittest.TestCase):
    def test_every_text_of_the_table_in_two_parts(self):
        for kind, offset, depth, text in lines():
            for cut in range(len(text) + 1):
                left, right = parts(text, [cut], depth)
                self.assertEqual(left.join(right).verdict(0, len(text)), jx.Verdict(kind, offset), text)

    def test_joins_in_any_order(self):
        numbers = random.Random(7)
        for kind, offset, depth, text in lines():
            for told in (True, False):
                runs = parts(text, [numbers.randrange(len(text) + 1) for _ in range(4)], depth, told)
                while len(runs) > 1:
                    at = numbers.randrange(len(runs) - 1)
                    runs[at : at + 2] = [runs[at].join(runs[at + 1])]
                self.assertEqual(runs[0].verdict(0, len(text)), jx.Verdict(kind, offset), text)

    def test_a_run_is_sent_and_pickled(self):
        for buffer in BUFFERS:
            run = jx.Run(buffer(b'{"a":[1'), 5)
            self.assertEqual(jx.Run.from_bytes(buffer(bytes(run))), run)
            self.assertEqual(pickle.loads(pickle.dumps(run)), run)
            self.assertEqual(hash(pickle.loads(pickle.dumps(run))), hash(run))
        self.assertNotEqual(jx.Run(b"1"), jx.Run(b"[1"))
        self.assertNotEqual(jx.Run(b"1"), bytes(jx.Run(b"1")))

    def test_offsets_count_from_the_start_of_the_text(self):
        self.assertEqual(jx.Run(b"nulx", 2**40).verdict(2**40, 2**40 + 4), jx.Verdict(jx.Kind.STOPPED, 2**40 + 3))
        self.assertEqual(jx.Run(b"nul").verdict(0, 3), jx.Verdict(jx.Kind.TRUNCATED, 0))

    def test_a_lost_part_is_told_and_never_judged(self):
        left, middle, right = parts(b"[1,22,3]", [3, 6])
        for one, other in ((left, right), (middle, left), (left, left), (left, jx.Run(b"22,"))):
            with self.assertRaises(jx.NotNeighbours):
                one.join(other)
        with self.assertRaises(jx.OtherDepth):
            left.join(jx.Run(b"22,", 3, depth=1))
        whole = functools.reduce(jx.Run.join, (left, middle, right))
        self.assertTrue(whole.verdict(0, 8).is_accepted)
        for start, end in ((0, 7), (0, 9), (1, 8), (8, 0), (-1, 8), (0, 2**64)):
            with self.assertRaises(jx.NotNeighbours):
                whole.verdict(start, end)

    def test_other_bytes_are_no_run(self):
        run = bytes(jx.Run(b'{"a":[1', 0))
        for end in range(len(run)):
            with self.assertRaises(jx.NotARun):
                jx.Run.from_bytes(run[:end])
        for at in range(len(run)):
            with self.assertRaises(jx.NotARun):
                jx.Run.from_bytes(run[:at] + bytes([run[at] ^ 1]) + run[at + 1 :])
        with self.assertRaises(jx.NotARun):
            jx.Run.from_bytes(run + b"\0")

    def test_a_run_of_many_levels(self):
        text = b"[" * 60000 + b"]" * 60000
        left, right = parts(text, [90000], 60000)
        self.assertGreater(len(bytes(right)), 100000)
        self.assertTrue(left.join(right).verdict(0, len(text)).is_accepted)

    def test_wrong_words(self):
        for words, fault in (((b"1", -1), ValueError), ((b"1", "0"), TypeError), (("1", 0), TypeError), ((b"1", 2**64 - 1), OverflowError)):
            with self.assertRaises(fault):
                jx.Run(*words)
        with self.assertRaises(OverflowError):
            jx.Run(b"12", 2**64 - 2)
        for depth in (-1, 65536):
            with self.assertRaises(ValueError):
                jx.Run(b"1", depth=depth)
        with self.assertRaises(TypeError):
            jx.Run(b"1").join(b"1")
