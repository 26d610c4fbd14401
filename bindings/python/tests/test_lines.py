"""JSON Lines, by chunks, files and iterators."""
import gc
import io
import os
import pathlib
import pickle
import tempfile
import threading
import unittest

import jx

LOG = b'{"n":1}\n{"n":\n\n[1,x]\r\n[[]]\n12'
BAD = [
    (2, 8, 13, jx.Kind.TRUNCATED, None),
    (3, 14, 14, jx.Kind.BLANK, None),
    (4, 15, 21, jx.Kind.STOPPED, 18),
    (5, 22, 26, jx.Kind.TOO_DEEP, 23),
    (6, 27, 29, jx.Kind.MAY_BE_CUT, None),
]


def told(lines):
    return [(line.number, line.start, line.end, line.kind, line.offset) for line in lines]


class OfData(unittest.TestCase):
    def test_bad_lines_come_with_number_span_and_reason(self):
        lines = jx.lines(LOG, depth=1)
        self.assertEqual(told(lines), BAD)
        self.assertEqual((lines.accepted, lines.refused, lines.blank), (1, 4, 1))
        first, blank, stopped = list(jx.lines(LOG, depth=1))[:3]
        self.assertEqual(str(first), "line 2: The text ends too early (bytes 8..13)")
        self.assertEqual(str(blank), "line 3: The line is blank (bytes 14..14)")
        self.assertEqual(str(stopped), "line 4: No JSON text has this byte here (byte 18)")
        self.assertEqual(stopped.reason, "No JSON text has this byte here")
        self.assertEqual(pickle.loads(pickle.dumps(first)), first)

    def test_any_buffer_is_taken_and_no_str(self):
        for data in (bytearray(LOG), memoryview(LOG)):
            self.assertEqual(told(jx.lines(data, depth=1)), BAD)
        with self.assertRaises(TypeError):
            jx.lines(LOG.decode())
        with self.assertRaises(ValueError):
            jx.lines(LOG, depth=65536)

    def test_blank_lines_are_passed_where_that_is_asked_for(self):
        self.assertEqual(told(jx.lines(LOG, depth=1, skip_blank=True)), [line for line in BAD if line[0] != 3])
        lines = jx.lines(b" \n\t", skip_blank=True)
        self.assertEqual((list(lines), lines.blank), ([], 2))

    def test_a_mark_is_skipped_in_front_alone(self):
        self.assertEqual(told(jx.lines(b"\xef\xbb\xbf1\n")), [(1, 0, 4, jx.Kind.STOPPED, 0)])
        self.assertEqual(told(jx.lines(b"\xef\xbb\xbf1\n\xef\xbb\xbf1\n", ignore_bom=True)), [(2, 5, 9, jx.Kind.STOPPED, 5)])

    def test_more_bad_lines_than_there_is_room_for(self):
        lines = jx.lines(b"\n" * 200_000 + b"[]\n")
        self.assertEqual([line.number for line in lines], list(range(1, 200_001)))
        self.assertEqual((lines.accepted, lines.refused, lines.blank), (1, 0, 200_000))


class ByChunks(unittest.TestCase):
    def test_each_cut_comes_to_the_same(self):
        for first in range(len(LOG) + 1):
            for step in (1, 2, 7, len(LOG)):
                reader = jx.LineReader(depth=1)
                found = reader.feed(LOG[:first])
                for at in range(first, len(LOG), step):
                    found += reader.feed(LOG[at : at + step])
                self.assertEqual((told(found), told(found + reader.end())), (BAD[:-1], BAD))
                self.assertEqual((reader.accepted, reader.refused, reader.blank), (1, 4, 1))

    def test_a_line_is_told_before_more_is_waited_for(self):
        away, into = os.pipe()
        with open(away, "rb") as file, open(into, "wb", buffering=0) as log:
            lines = jx.lines_file(file)
            log.write(b"{}\nnul\n[")
            self.assertEqual(next(lines).number, 2)
            log.write(b"]\n}\n")
            self.assertEqual((next(lines).number, lines.accepted), (4, 2))

    def test_files_and_iterators(self):
        with tempfile.TemporaryDirectory() as folder:
            path = pathlib.Path(folder) / "log.jsonl"
            path.write_bytes(LOG)
            for file in (path, str(path), os.fsencode(path), io.BytesIO(LOG), [LOG[:3], LOG[3:]], iter([LOG]), (bytes([each]) for each in LOG)):
                self.assertEqual(told(jx.lines_file(file, depth=1)), BAD)
            with open(path, "rb") as file:
                self.assertEqual(told(jx.lines_file(file, depth=1)), BAD)
            with open(path) as words, self.assertRaises(TypeError):
                jx.lines_file(words)
            with self.assertRaises(FileNotFoundError):
                list(jx.lines_file(path.with_name("none")))
        with self.assertRaises(TypeError):
            list(jx.lines_file(["[]"]))

    @unittest.skipUnless(os.path.isdir("/proc/self/fd"), "the open files are not listed")
    def test_a_loop_that_is_left_closes_its_file(self):
        with tempfile.TemporaryDirectory() as folder:
            path = os.path.join(folder, "log.jsonl")
            pathlib.Path(path).write_bytes(b"nul\n" * 100_000)
            before = len(os.listdir("/proc/self/fd"))
            # What the garbage collector would find is open until it comes by.
            gc.disable()
            try:
                for calls in (jx.lines_file, jx.each_file):
                    waiting = [calls(path) for _ in range(50)]
                    self.assertEqual(len(os.listdir("/proc/self/fd")), before)
                    del waiting
                for _ in range(50):
                    for line in jx.lines_file(path):
                        break
                self.assertEqual(len(os.listdir("/proc/self/fd")), before)
                with jx.lines_file(path) as lines:
                    self.assertEqual(next(lines).number, 1)
                self.assertEqual((len(os.listdir("/proc/self/fd")), list(lines), lines.refused > 0), (before, [], True))
                kept = jx.lines_file(path)
                next(kept)
                kept.close()
                self.assertEqual(len(os.listdir("/proc/self/fd")), before)
            finally:
                gc.enable()

    def test_what_a_caller_opened_stays_open(self):
        def chunks():
            yield b"nul\n"
            yield b"[1]\n"

        for calls in (jx.lines_file, jx.each_file):
            given, file = chunks(), io.BytesIO(b"nul\n[1]\n")
            for opened in (given, file):
                read = calls(opened)
                if calls is jx.lines_file:
                    next(read)
                read.close()
            self.assertEqual((len(list(given)), file.closed), (1 if calls is jx.lines_file else 2, False))

    def test_a_reader_that_fails_raises_its_own_fault_behind_what_was_told(self):
        def failing():
            yield b"nul\n"
            raise OSError("gone")

        lines = jx.lines_file(failing())
        self.assertEqual(next(lines).number, 1)
        with self.assertRaises(OSError):
            next(lines)

    def test_a_reader_is_neither_copied_nor_shared_at_once(self):
        reader = jx.LineReader()
        with self.assertRaises(TypeError):
            pickle.dumps(reader)
        found = []
        threads = [threading.Thread(target=lambda: found.extend(reader.feed(b"[]\n\n" * 50_000))) for _ in range(4)]
        for thread in threads:
            thread.start()
        for thread in threads:
            thread.join()
        self.assertEqual((reader.accepted, reader.blank, len(found)), (200_000, 200_000, 200_000))
