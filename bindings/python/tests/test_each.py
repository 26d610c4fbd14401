"""The values of a container, by chunks, files and iterators."""
import gc
import io
import json
import os
import pathlib
import pickle
import tempfile
import threading
import unittest
import warnings

import jx

TEXT = b' {"meta": {"v" : 1}, "rows": [ {"id" : 7, "n": "a \\" ,]\xc3\xb6"} , [ ] ,-1.50E+2\n, null ] } '
ROWS = [b'{"id":7,"n":"a \\" ,]\xc3\xb6"}', b"[]", b"-1.50E+2", b"null"]
MEMBERS = [b'{"v":1}', b"[" + b",".join(ROWS) + b"]"]


def given(values):
    """The values that are given, and the exception that is raised after them."""
    got = []
    try:
        for value in values:
            got.append(value)
    except (jx.Refused, jx.NotFound) as fault:
        return got, fault
    return got, None


class OfData(unittest.TestCase):
    def test_elements_and_values_of_members(self):
        self.assertEqual(list(jx.each(TEXT, "/rows")), ROWS)
        self.assertEqual(list(jx.each(TEXT)), MEMBERS)
        self.assertEqual(list(jx.each(TEXT, "/rows/1")), [])
        self.assertEqual([json.loads(value) for value in jx.each(TEXT, "/rows")], json.loads(TEXT)["rows"])

    def test_any_buffer_is_taken_and_no_str(self):
        for data in (bytearray(TEXT), memoryview(TEXT)):
            self.assertEqual(list(jx.each(data, "/rows")), ROWS)
        with self.assertRaises(TypeError):
            jx.each(TEXT.decode())
        with self.assertRaises(TypeError):
            jx.each(TEXT, b"/rows")
        with self.assertRaises(ValueError):
            jx.each(TEXT, depth=65536)

    def test_a_fault_comes_behind_the_values_that_are_due(self):
        got, fault = given(jx.each(b"[1,\n2,3x"))
        self.assertEqual((got, fault.kind, fault.offset, fault.lineno, fault.colno), ([b"1", b"2"], jx.Kind.STOPPED, 7, 2, 4))
        got, fault = given(jx.each(b"[1,2 "))
        self.assertEqual((got, fault.kind, fault.offset), ([b"1"], jx.Kind.TRUNCATED, 5))
        got, fault = given(jx.each(b"[1,[2]]", depth=1))
        self.assertEqual((got, fault.kind, fault.offset), ([b"1"], jx.Kind.TOO_DEEP, 3))
        got, fault = given(jx.each(b'{"a":[1],"a":[2]}', "/a"))
        self.assertEqual((got, type(fault), fault.token), ([b"1"], jx.NameRepeated, 0))

    def test_a_pointer_that_leads_to_no_container(self):
        for text, pointer, wanted, token in (
            (b"12", "", jx.NotAContainer, 0),
            (b'{"a":7}', "/a", jx.NotAContainer, 1),
            (b'{"a":7}', "/a/b", jx.NotAContainer, 1),
            (b'{"a":7}', "/b", jx.NoSuchMember, 0),
            (b"[[]]", "/1", jx.PastEnd, 0),
            (b"[[]]", "/-", jx.AfterLast, 0),
            (b"[[]]", "/00", jx.NotAnIndex, 0),
        ):
            got, fault = given(jx.each(text, pointer))
            self.assertEqual((got, type(fault), fault.token), ([], wanted, token))

    def test_what_is_no_pointer_is_told_at_once(self):
        for pointer in ("rows", "/~", "/\ud800"):
            with self.assertRaises(jx.BadPointer):
                jx.each(TEXT, pointer)
        with self.assertRaisesRegex(jx.BadPointer, "the ~ at byte 5"):
            jx.each_file(io.BytesIO(TEXT), "/rows~2")

    def test_a_mark(self):
        self.assertEqual(list(jx.each(b"\xef\xbb\xbf[1]", ignore_bom=True)), [b"1"])
        self.assertEqual(given(jx.each(b"\xef\xbb\xbf[1]"))[1].offset, 0)

    def test_values_that_are_longer_than_the_room(self):
        text = b"[" + b",".join([b'"%s"' % (b"x" * 200_000), b"1", b"[" + b"2," * 100_000 + b"2]"] * 3) + b"]"
        self.assertEqual(b"[" + b",".join(jx.each(text)) + b"]", text)


class ByChunks(unittest.TestCase):
    def test_each_cut_comes_to_the_same(self):
        for first in range(len(TEXT) + 1):
            for step in (1, 2, 7, len(TEXT)):
                reader = jx.ValueReader("/rows")
                got = reader.feed(TEXT[:first])
                for at in range(first, len(TEXT), step):
                    got += reader.feed(TEXT[at : at + step])
                reader.end()
                self.assertEqual(got, ROWS)

    def test_a_value_comes_before_more_is_waited_for(self):
        away, into = os.pipe()
        with open(away, "rb") as file, open(into, "wb", buffering=0) as dump:
            values = jx.each_file(file)
            dump.write(b'[{"n": 1}, {"n"')
            self.assertEqual(next(values), b'{"n":1}')
            dump.write(b": 2}, ")
            self.assertEqual(next(values), b'{"n":2}')
            values.close()

    def test_files_and_iterators(self):
        with tempfile.TemporaryDirectory() as folder:
            path = pathlib.Path(folder) / "dump.json"
            path.write_bytes(TEXT)
            for file in (path, str(path), os.fsencode(path), io.BytesIO(TEXT), [TEXT[:3], TEXT[3:]], iter([TEXT]), (bytes([one]) for one in TEXT)):
                self.assertEqual(list(jx.each_file(file, "/rows")), ROWS)
            with open(path, "rb") as file:
                self.assertEqual(list(jx.each_file(file, "/rows")), ROWS)
            with open(path) as words, self.assertRaises(TypeError):
                jx.each_file(words)
            with self.assertRaises(FileNotFoundError):
                list(jx.each_file(path.with_name("none")))
        with self.assertRaises(TypeError):
            list(jx.each_file(["[]"]))
        got, fault = given(jx.each_file([b"[1, 2", b", x]"]))
        self.assertEqual((got, fault.offset, fault.lineno), ([b"1", b"2"], 7, None))

    def test_a_reader_that_fails_raises_its_own_fault_behind_what_was_given(self):
        def failing():
            yield b"[1,2"
            raise OSError("gone")

        values = jx.each_file(failing())
        self.assertEqual(next(values), b"1")
        with self.assertRaises(OSError):
            next(values)

    def test_whoever_wants_no_more_frees_all(self):
        with warnings.catch_warnings(), tempfile.TemporaryDirectory() as folder:
            warnings.simplefilter("error")
            path = os.path.join(folder, "dump.json")
            with open(path, "wb") as file:
                file.write(b"[" + b"[1, 2, 3]," * 100_000 + b"0]")
            values = jx.each_file(path)
            self.assertEqual(next(values), b"[1,2,3]")
            values.close()
            self.assertEqual(list(values), [])
            for value in jx.each_file(path):
                break
            gc.collect()
        reader = jx.ValueReader()
        self.assertEqual(reader.feed(b"[1,"), [b"1"])
        reader.close()
        reader.close()
        for call in (reader.end, lambda: reader.feed(b"2")):
            with self.assertRaises(ValueError):
                call()
        reader = jx.ValueReader()
        reader.feed(b"[]")
        reader.end()
        with self.assertRaises(ValueError):
            reader.end()

    def test_a_reader_is_neither_copied_nor_shared_at_once(self):
        reader = jx.ValueReader()
        with self.assertRaises(TypeError):
            pickle.dumps(reader)
        got = reader.feed(b"[0,")
        threads = [threading.Thread(target=lambda: got.extend(reader.feed(b"[1],[2]," * 50_000))) for _ in range(4)]
        for thread in threads:
            thread.start()
        for thread in threads:
            thread.join()
        got += reader.feed(b"3]")
        reader.end()
        self.assertEqual((len(got), got[0], got[-1], got.count(b"[1]")), (400_002, b"0", b"3", 200_000))


if __name__ == "__main__":
    unittest.main()
