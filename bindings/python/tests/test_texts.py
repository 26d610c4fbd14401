"""Verdicts on whole texts and on texts that come in parts."""
import builtins
import bz2
import gzip
import io
import json
import lzma
import mmap
import os
import pathlib
import pickle
import re
import tempfile
import threading
import unittest

import jx

TABLE = pathlib.Path(__file__).resolve().parents[3] / "tests" / "verdicts"
SENTENCES = TABLE.with_name("sentences")
BUFFERS = (bytes, bytearray, memoryview, lambda data: memoryview(bytearray(b"x" + data))[1:])


def unspelt(text):
    return re.sub(rb"\\x(..)", lambda found: bytes.fromhex(found[1].decode()), text)


def lines():
    """The rows of the table of verdicts: kind, offset, depth, text."""
    for line in TABLE.read_bytes().splitlines():
        if line and not line.startswith(b"#"):
            kind, offset, depth, text = (line + b" ").split(b" ", 3)
            yield jx.Kind[kind.decode().upper()], int(offset), int(depth), unspelt(text[:-1])


class Table(unittest.TestCase):
    def test_every_verdict_of_the_table_in_every_buffer(self):
        rows = list(lines())
        self.assertGreater(len(rows), 35)
        for kind, offset, depth, text in rows:
            for buffer in BUFFERS:
                self.assertEqual(jx.verdict(buffer(text), depth=depth), jx.Verdict(kind, offset), text)

    def test_every_verdict_of_the_table_by_a_reader(self):
        for kind, offset, depth, text in lines():
            for size in (1, 2, 3, 1000):
                reader = jx.Reader(depth=depth)
                for start in range(0, len(text), size):
                    reader.feed(text[start : start + size])
                self.assertEqual(reader.verdict(), jx.Verdict(kind, offset), text)

    def test_check_raises_where_the_verdict_refuses(self):
        for kind, offset, depth, text in lines():
            if kind is jx.Kind.ACCEPTED:
                self.assertIsNone(jx.check(text, depth=depth))
                continue
            with self.assertRaises(jx.Refused) as caught:
                jx.check(text, depth=depth)
            self.assertIs(caught.exception.kind, kind)
            self.assertEqual(caught.exception.offset, len(text) if kind is jx.Kind.TRUNCATED else offset)


    def test_a_verdict_is_true_where_the_bytes_are_accepted(self):
        for kind, _, depth, text in lines():
            self.assertIs(bool(jx.verdict(text, depth=depth)), kind is jx.Kind.ACCEPTED, text)
        self.assertFalse(jx.verdict(b"["))
        self.assertFalse(jx.Reader().verdict())
        self.assertFalse(jx.Document(b"[").verdict())


class Places(unittest.TestCase):
    def test_lines_and_columns_are_those_of_the_json_module(self):
        for text in ('{"a": 1,\n "b": x}', "[1,\n2,\n\n3 4]", '["é𝄞", x]', '{"a"\n\n:1]', "[1 2"):
            with self.assertRaises(json.JSONDecodeError) as theirs:
                json.loads(text)
            with self.assertRaises(jx.Refused) as ours:
                jx.check(text.encode())
            wanted = (theirs.exception.lineno, theirs.exception.colno)
            self.assertEqual((ours.exception.lineno, ours.exception.colno), wanted, text)

    def test_a_refusal_is_a_value_error_with_a_sentence(self):
        with self.assertRaises(ValueError) as caught:
            jx.check(b"nulx")
        self.assertEqual(str(caught.exception), "expected l, as in null, found x: line 1 column 4 (byte 3)")
        self.assertEqual(caught.exception.msg, "expected l, as in null, found x")

    def test_a_sentence_says_what_may_stand_there(self):
        for line in SENTENCES.read_text().splitlines():
            if line.startswith("#"):
                continue
            text, wanted = line.split("\t")
            text = unspelt(text.encode())
            for call in (jx.check, lambda it: jx.check_file(io.BytesIO(it))):
                with self.assertRaises(jx.Refused) as caught:
                    call(text)
                self.assertEqual(caught.exception.msg, wanted, text)
        with self.assertRaises(jx.Refused) as caught:
            jx.check(b"[[[", depth=2)
        self.assertEqual(caught.exception.msg, "more than 2 containers open")
        with self.assertRaises(jx.Refused) as caught:
            jx.check(b"\xef\xbb1", ignore_bom=True)
        self.assertEqual(caught.exception.msg, "a byte order mark is begun and not ended")
        with self.assertRaises(jx.Refused) as caught:
            jx.check(b'{"a":1,\n "\\u0061":2}', unique_names=True)
        self.assertEqual(caught.exception.msg, 'the name "a" was used at line 1, column 2')

    def test_a_sentence_of_a_long_file_is_that_of_its_text(self):
        """Where the fault is far from the front, the text is not kept."""
        front = b"[" + b"1,\n" * 400000
        for end in (b"01]", b"", b'{"a" 1', b"tru", b"[" * 512, b'"\xe9"'):
            text = front + end
            with self.assertRaises(jx.Refused) as whole:
                jx.check(text)
            with self.assertRaises(jx.Refused) as parts:
                jx.check_file(io.BytesIO(text))
            with self.assertRaises(jx.Refused) as edited:
                jx.Document(text).check()
            self.assertEqual(str(parts.exception), str(whole.exception))
            self.assertEqual(str(edited.exception), str(whole.exception))


class Settings(unittest.TestCase):
    def test_a_byte_order_mark_is_ignored_if_asked(self):
        text = b"\xef\xbb\xbfnull"
        self.assertEqual(jx.verdict(text), jx.Verdict(jx.Kind.STOPPED, 0))
        self.assertTrue(jx.verdict(text, ignore_bom=True).is_accepted)
        reader = jx.Reader(ignore_bom=True)
        for byte in text:
            reader.feed(bytes([byte]))
        reader.check()

    def test_a_repeated_name_is_refused_if_asked(self):
        text = b'{"a":1,"\\u0061":2}'
        self.assertTrue(jx.verdict(text).is_accepted)
        self.assertEqual(jx.verdict(text, unique_names=True), jx.Verdict(jx.Kind.REPEATED_NAME, 7))

    def test_wrong_depths_are_refused(self):
        for depth, fault in ((-1, ValueError), (65536, ValueError), (2**40, ValueError), (1.5, TypeError), (None, TypeError)):
            with self.assertRaises(fault):
                jx.check(b"1", depth=depth)


    def test_calls_have_unique_names_where_the_whole_text_is_there(self):
        text = b'{"a":1,"a":2}'
        for call in (jx.check, jx.Index, lambda data, **words: jx.get(data, "", **words), lambda data, **words: jx.get_all(data, [], **words), jx.loads):
            call(text)
            with self.assertRaises(jx.Refused) as caught:
                call(text, unique_names=True)
            self.assertEqual((caught.exception.kind, caught.exception.offset), (jx.Kind.REPEATED_NAME, 7))
        self.assertIs(jx.verdict(text, unique_names=True).kind, jx.Kind.REPEATED_NAME)
        for call in (jx.Reader, jx.Document):
            with self.assertRaises(TypeError):
                call(unique_names=True)


class Inputs(unittest.TestCase):
    def test_a_str_is_refused_with_what_to_do(self):
        for call in (jx.check, jx.verdict, jx.elements, jx.Index, lambda data: jx.get(data, ""), jx.Reader().feed):
            with self.assertRaisesRegex(TypeError, "encode"):
                call("null")

    def test_what_is_no_buffer_is_refused(self):
        for data in (1, None, [], object()):
            with self.assertRaises(TypeError):
                jx.check(data)
        with self.assertRaises(BufferError):
            jx.check(memoryview(b"1 2 3 ")[::2])

    def test_an_empty_buffer_is_truncated(self):
        for buffer in (bytes, bytearray, memoryview):
            self.assertEqual(jx.verdict(buffer(b"")).kind, jx.Kind.TRUNCATED)

    def test_a_map_of_a_file_and_a_closed_one(self):
        with tempfile.TemporaryFile() as file:
            file.write(b"[1,2]")
            file.flush()
            mapped = mmap.mmap(file.fileno(), 0, access=mmap.ACCESS_READ)
            jx.check(mapped)
            mapped.close()
            with self.assertRaises(ValueError):
                jx.check(mapped)

    def test_a_buffer_is_let_go_after_a_call(self):
        data = bytearray(b"[1]")
        jx.check(data)
        data += b" "
        jx.check(data)
        with self.assertRaises(jx.Refused):
            jx.check(data[:2])


class Files(unittest.TestCase):
    def test_a_file_by_path_and_open(self):
        with tempfile.TemporaryDirectory() as folder:
            path = os.path.join(folder, "a.json")
            pathlib.Path(path).write_bytes(b"[" + b"1,\n" * 1_000_000 + b"x]")
            for file in (path, pathlib.Path(path), path.encode()):
                with self.assertRaises(jx.Refused) as caught:
                    jx.check_file(file)
                self.assertEqual((caught.exception.offset, caught.exception.lineno, caught.exception.colno), (3_000_001, 1_000_001, 1))
            with open(path, "rb") as file:
                file.seek(1)
                with self.assertRaises(jx.Refused) as caught:
                    jx.check_file(file)
                self.assertEqual((caught.exception.offset, caught.exception.lineno), (1, 1))
            with self.assertRaises(FileNotFoundError):
                jx.check_file(path + ".none")

    def test_a_packed_file_is_what_its_reader_gives(self):
        with tempfile.TemporaryDirectory() as folder:
            for packer in (gzip, bz2, lzma):
                for text, offset in ((b'{"a":[1],"b":2}', None), (b'{"a":1,\n"a":2}', 8), (b'{"a":1,', 7)):
                    path = os.path.join(folder, "a")
                    with packer.open(path, "wb") as file:
                        file.write(text)
                    for unique_names in (False, True):
                        for reader in (lambda file: file, io.BufferedReader):
                            with packer.open(path) as unpacker, reader(unpacker) as file:
                                self.assertEqual(self.refusal_of(file, unique_names), None if offset == 8 and not unique_names else offset)

    def test_a_file_is_checked_from_its_place_on(self):
        with tempfile.TemporaryDirectory() as folder:
            path = pathlib.Path(folder, "a.json")
            for front, text, offset in ((b"", b"{}", None), (b"] [", b"{}", None), (b"x" * 9000, b"[]", None), (b"1", b"{}x", 2), (b"1", b"{} {", 3)):
                for unique_names in (False, True):
                    for buffering in (-1, 0):
                        path.write_bytes(front)
                        with open(path, "r+b", buffering) as file:
                            file.seek(0, os.SEEK_END)
                            file.write(text)
                            file.seek(0)
                            self.assertEqual(file.read(len(front)), front)
                            self.assertEqual(self.refusal_of(file, unique_names), offset)

    @staticmethod
    def refusal_of(file, unique_names):
        """The offset at which a file is refused, or None."""
        try:
            jx.check_file(file, unique_names=unique_names)
        except jx.Refused as refused:
            return refused.offset
        return None

    def test_a_refusal_tells_the_path(self):
        with tempfile.TemporaryDirectory() as folder:
            path = os.path.join(folder, "a.json")
            pathlib.Path(path).write_bytes(b"[1 2]")
            said = path + ": expected a comma or ], found 2: line 1 column 4 (byte 3)"
            for unique_names in (False, True):
                with open(path, "rb") as file:
                    for given in (path, pathlib.Path(path), path.encode(), file):
                        with self.assertRaises(jx.Refused) as caught:
                            jx.check_file(given, unique_names=unique_names)
                        again = pickle.loads(pickle.dumps(caught.exception))
                        for refused in (caught.exception, again):
                            self.assertEqual((refused.filename, str(refused)), (path, said))
        for call in (lambda: jx.check_file(io.BytesIO(b"[")), lambda: jx.check(b"[")):
            with self.assertRaises(jx.Refused) as caught:
                call()
            self.assertIsNone(caught.exception.filename)

    def test_a_file_without_bytes_yet_has_not_ended(self):
        calls = (
            jx.check_file,
            lambda file: jx.check_file(file, unique_names=True),
            lambda file: list(jx.each_file(file)),
            lambda file: list(jx.lines_file(file)),
            lambda file: jx.find_file(file, [""]),
        )
        for call in calls:
            for buffering in (-1, 0):
                for text in (b"", b"[1]", b"[1]\n[2]\n"):
                    away, into = os.pipe()
                    os.set_blocking(away, False)
                    with open(away, "rb", buffering) as file, open(into, "wb", 0) as writer:
                        writer.write(text)
                        with self.assertRaises(BlockingIOError):
                            call(file)

    def test_a_read_may_give_any_buffer(self):
        class Given(io.RawIOBase):
            def __init__(self, kind):
                self.kind, self.rest = kind, b'{"a":[1,2]}'

            def read(self, size=-1):
                given, self.rest = self.rest[:4], self.rest[4:]
                return self.kind(given)

        for kind in (bytes, bytearray, memoryview):
            for unique_names in (False, True):
                jx.check_file(Given(kind), unique_names=unique_names)
            self.assertEqual(list(jx.each_file(Given(kind), "/a")), [b"1", b"2"])
            self.assertEqual(list(jx.lines_file(Given(kind))), [])
            self.assertEqual(jx.find_file(Given(kind), ["/a/1"])[0].start, 8)

    def test_a_pipe_has_no_lines(self):
        ends = os.pipe()
        with os.fdopen(ends[1], "wb") as file:
            file.write(b"[1 2]")
        with os.fdopen(ends[0], "rb") as file, self.assertRaises(jx.Refused) as caught:
            jx.check_file(file)
        self.assertEqual((caught.exception.offset, caught.exception.lineno), (3, None))

    def test_a_file_of_words_is_refused(self):
        with open(os.devnull) as words:
            for file in (io.StringIO("[1]"), words):
                for unique_names in (False, True):
                    with self.assertRaisesRegex(TypeError, "rb"):
                        jx.check_file(file, unique_names=unique_names)

    def test_names_of_a_file(self):
        with tempfile.TemporaryDirectory() as folder:
            path = pathlib.Path(folder, "a.json")
            path.write_bytes(b' {"a":1,\n"a":2}')
            jx.check_file(path)
            with self.assertRaises(jx.Refused) as caught:
                jx.check_file(path, unique_names=True)
            self.assertEqual((caught.exception.offset, caught.exception.lineno, caught.exception.colno), (9, 2, 1))
            with open(path, "rb") as file:
                file.seek(1)
                with self.assertRaises(jx.Refused) as caught:
                    jx.check_file(file, unique_names=True)
                self.assertEqual(caught.exception.offset, 8)
            path.write_bytes(b"")
            with self.assertRaises(jx.Refused) as caught:
                jx.check_file(path, unique_names=True)
            self.assertIs(caught.exception.kind, jx.Kind.TRUNCATED)
        with self.assertRaises(jx.Refused):
            jx.check_file(io.BytesIO(b'{"a":1,"a":2}'), unique_names=True)
        jx.check_file(io.BytesIO(b'{"a":1,"b":2}'), unique_names=True)


BLANKS = re.compile(rb'("(?:[^"\\]|\\.)*")|[ \t\n\r]+', re.DOTALL)


class CompactForms(unittest.TestCase):
    def test_every_text_of_the_table_in_every_buffer(self):
        for kind, offset, depth, text in lines():
            for buffer in BUFFERS:
                if kind is jx.Kind.ACCEPTED:
                    wanted = BLANKS.sub(lambda found: found[1] or b"", text)
                    form = jx.compact(buffer(text), depth=depth)
                    self.assertIs(type(form), bytes)
                    self.assertEqual(form, wanted)
                    self.assertEqual(jx.compact(form, depth=depth), form)
                    continue
                with self.assertRaises(jx.Refused) as caught:
                    jx.compact(buffer(text), depth=depth)
                self.assertIs(caught.exception.kind, kind)
                self.assertEqual(caught.exception.offset, len(text) if kind is jx.Kind.TRUNCATED else offset)

    def test_it_reads_as_the_same_value(self):
        value = {"a b": [1.5, True, None, "x\n\u00e9 \U0001f600"], "": {" ": []}}
        for indent in (None, 1, "\t"):
            form = jx.compact(json.dumps(value, indent=indent).encode())
            self.assertEqual(form, json.dumps(value, separators=(",", ":")).encode())
            self.assertEqual(json.loads(form), value)

    def test_settings(self):
        self.assertEqual(jx.compact(b"\xef\xbb\xbf [ 1 ]", ignore_bom=True), b"[1]")
        self.assertEqual(jx.compact(b'{"a": 1, "a": 2}'), b'{"a":1,"a":2}')
        with self.assertRaises(jx.Refused) as caught:
            jx.compact(b'{"a": 1,\n"a": 2}', unique_names=True)
        self.assertEqual((caught.exception.offset, caught.exception.lineno, caught.exception.colno), (9, 2, 1))
        with self.assertRaisesRegex(TypeError, "encode"):
            jx.compact("[1]")
        with self.assertRaises(ValueError):
            jx.compact(b"[1]", depth=65536)


class Names(unittest.TestCase):
    def test_a_star_takes_no_name_of_python(self):
        given = {}
        exec("from jx import *", given)
        self.assertEqual(sorted(set(given) & set(dir(builtins)) - {"__builtins__"}), [])
        self.assertIs(given["Index"], jx.Index)


class Threads(unittest.TestCase):
    def test_a_hundred_threads_at_once(self):
        text = b"[" + b'{"a":[1,2,3]},' * 2000 + b"x]"
        offset, wrong = len(text) - 2, []

        def work():
            for _ in range(5):
                if jx.verdict(text) != jx.Verdict(jx.Kind.STOPPED, offset):
                    wrong.append(1)

        threads = [threading.Thread(target=work) for _ in range(100)]
        for thread in threads:
            thread.start()
        for thread in threads:
            thread.join()
        self.assertEqual(wrong, [])
