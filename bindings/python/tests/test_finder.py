"""Pointers that are looked up in a text that comes by chunks, files and iterators."""
import io
import os
import pickle
import tempfile
import unittest

import jx

TEXT = b' {"users": [{"n\\u0061me":"Ann"}, {"name" :"Bo"}], "a~/": {"": null}, "b": 1, "b": 2}\n'
POINTERS = ["/users/1/name", "/users/0/name", "/a~0~1/", "", "/users"]
WANTED = [b'"Bo"', b'"Ann"', b"null", TEXT.strip(), b'[{"n\\u0061me":"Ann"}, {"name" :"Bo"}]']


def bytes_of(found):
    return [TEXT[one.start : one.end] for one in found]


class OfChunks(unittest.TestCase):
    def test_every_cut_gives_the_same(self):
        for size in range(1, len(TEXT) + 1):
            finder = jx.Finder(POINTERS)
            for at in range(0, len(TEXT), size):
                finder.feed(TEXT[at : at + size])
            self.assertEqual(bytes_of(finder.end()), WANTED)

    def test_kinds_and_spans(self):
        finder = jx.Finder(["/0", "/1/a"])
        finder.feed(b'[true,{"a":')
        finder.feed(bytearray(b"-1.5e3}]"))
        self.assertEqual(finder.end(), [(jx.ValueKind.TRUE, 1, 5), (jx.ValueKind.NUMBER, 11, 17)])
        with self.assertRaises(ValueError):
            finder.feed(b"1")
        with self.assertRaises(ValueError):
            finder.end()

    def test_what_is_not_there(self):
        for pointer, fault in (("/b", jx.NameRepeated), ("/c", jx.NoSuchMember), ("/users/2", jx.PastEnd), ("/users/-", jx.AfterLast)):
            with self.assertRaises(fault):
                jx.find_file([TEXT], [pointer])
            self.assertEqual(jx.find_file([TEXT], [pointer, "/users/1/name"], None)[0], None)
        with self.assertRaises(jx.BadPointer):
            jx.find_file([TEXT], ["users"], None)
        with self.assertRaises(TypeError):
            jx.Finder("/users")

    def test_what_is_no_text(self):
        for text, kind, offset in ((b"[1,]", jx.Kind.STOPPED, 3), (b'{"a":', jx.Kind.TRUNCATED, 5), (b"[[[]]]", jx.Kind.TOO_DEEP, 2)):
            with self.assertRaises(jx.Refused) as caught:
                jx.find_file([text[:1], text[1:]], ["/0"], None, depth=2)
            self.assertEqual((caught.exception.kind, caught.exception.offset), (kind, offset))
        with self.assertRaises(jx.Refused):
            jx.find_file([b"\xef\xbb\xbf1"], [""])
        self.assertEqual(jx.find_file([b"\xef\xbb", b"\xbf1"], [""], ignore_bom=True), [(jx.ValueKind.NUMBER, 3, 4)])

    def test_no_pointers(self):
        self.assertEqual(jx.find_file([b"[]"], []), [])
        with self.assertRaises(jx.Refused):
            jx.find_file([b"["], [])


class OfFiles(unittest.TestCase):
    def test_paths_files_and_iterators(self):
        with tempfile.TemporaryDirectory() as folder:
            path = os.path.join(folder, "text")
            with open(path, "wb") as file:
                file.write(TEXT)
            self.assertEqual(bytes_of(jx.find_file(path, POINTERS)), WANTED)
            with open(path, "rb") as file:
                found = jx.find_file(file, POINTERS)
                file.seek(found[0].start)
                self.assertEqual(file.read(found[0].end - found[0].start), b'"Bo"')
        self.assertEqual(bytes_of(jx.find_file(io.BytesIO(TEXT), POINTERS)), WANTED)
        self.assertEqual(bytes_of(jx.find_file((TEXT[n : n + 1] for n in range(len(TEXT))), POINTERS)), WANTED)
        with self.assertRaises(TypeError):
            jx.find_file(io.StringIO("[]"), [""])
        with self.assertRaises(FileNotFoundError):
            jx.find_file("/nonexistent", [""])

    def test_a_look_up_is_not_copied(self):
        with self.assertRaises(TypeError):
            pickle.dumps(jx.Finder([""]))


if __name__ == "__main__":
    unittest.main()
