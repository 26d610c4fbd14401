"""Texts that stay where they are, by their saved indexes: beside `json.loads`, changed and cut, pickled, and on several threads."""
import collections.abc
import concurrent.futures
import io
import json
import mmap
import os
import pathlib
import pickle
import random
import tempfile
import time
import unittest

import jx
from jx import _engine
from jx._saved import SavedText

ROWS = [{"id": n, "name": "n%d \u20ac" % n, "tags": ["a"] * (n % 3), "deep": {"x/y": [n, None, True, -1.5e3]}} for n in range(400)]
TEXT = json.dumps({"meta": {"version": 3}, "rows": ROWS, "empty": [], "none": {}, "last": "x" * 300}, indent=1).encode()


def index_of(text, **words):
    with tempfile.TemporaryDirectory() as folder:
        with open(jx.save(io.BytesIO(text), os.path.join(folder, "i"), **words), "rb") as file:
            return file.read()


def opened(text, chunk=64, names=False):
    return jx.open(io.BytesIO(text), index_of(text, chunk=chunk, names=names))


class Reads(io.BytesIO):
    """A text, and which chunks of it were read."""

    def __init__(self, text):
        super().__init__(text)
        self.places, self.count = [], 0

    def read(self, *words):
        self.places.append(self.tell())
        found = super().read(*words)
        self.count += len(found)
        return found


class Asked:
    """Counts the look-ups by the library, each of which begins at the root."""

    def __enter__(self):
        self.count, self._answers = 0, SavedText.answers

        def answers(text, pointers):
            self.count += 1
            return self._answers(text, pointers)

        SavedText.answers = answers
        return self

    def __exit__(self, *_):
        SavedText.answers = self._answers


def plain(value):
    """A value that was found, read whole."""
    return value.load() if isinstance(value, jx.View) else value


def made(rng, depth):
    kind = rng.randrange(6) if depth else rng.randrange(4)
    if kind == 4:
        return [made(rng, depth - 1) for _ in range(rng.randrange(6))]
    if kind == 5:
        return {rng.choice("abcdé/~\"\\") + str(n): made(rng, depth - 1) for n in range(rng.randrange(6))}
    return rng.choice([None, True, False, "", "x\"]},:", "\U0001f600" * rng.randrange(40), 0, -12.5e-3, 10**20])


class Values(unittest.TestCase):
    def test_views_are_what_json_reads(self):
        whole = json.loads(TEXT)
        for chunk, names in ((64, False), (64, True), (1024, False), (1024, True), (32768, True)):
            with opened(TEXT, chunk, names) as root:
                self.assertEqual(root["rows"][123]["name"], ROWS[123]["name"])
                self.assertEqual(root["rows"][-1]["deep"]["x/y"][-1], -1500.0)
                self.assertEqual(root.find("/rows/7/deep/x~1y/0"), 7)
                self.assertEqual(root["rows"][5].find("/deep").pointer, "/rows/5/deep")
                self.assertEqual([plain(one) for one in root.find_all(["/meta/version", "/rows/3", "/last"])], [3, ROWS[3], "x" * 300])
                self.assertEqual(root.load(), whole)
                self.assertEqual(bytes(root["meta"]), b'{\n  "version": 3\n }')
                start, end = root["meta"].span
                self.assertEqual(TEXT[start:end], bytes(root["meta"]))

    def test_arrays_are_sequences(self):
        with opened(TEXT) as root:
            rows = root["rows"]
            self.assertIsInstance(rows, collections.abc.Sequence)
            self.assertEqual((len(rows), len(root["empty"]), list(root["empty"])), (400, 0, []))
            self.assertEqual([row.load() for row in rows], ROWS)
            self.assertEqual([row["id"] for row in reversed(rows)], list(range(399, -1, -1)))
            for places in (slice(10, 20), slice(-3, None), slice(390, 1000, 3), slice(30, 10, -7), slice(5, 5)):
                self.assertEqual([row.load() for row in rows[places]], ROWS[places])
                self.assertEqual(len(rows[places]), len(ROWS[places]))
            self.assertEqual(rows[10:20][2:5][-1]["id"], 14)
            self.assertIn(rows[3], rows)
            self.assertEqual(rows.index(rows[17]), 17)
            for place in (400, -401):
                with self.assertRaises(IndexError):
                    rows[place]
            with self.assertRaises(TypeError):
                rows["0"]
            self.assertEqual([list(row["tags"]) for row in rows[:6]], [row["tags"] for row in ROWS[:6]])

    def test_objects_are_mappings(self):
        with opened(TEXT) as root:
            self.assertIsInstance(root, collections.abc.Mapping)
            self.assertEqual((list(root), len(root), len(root["none"]), dict(root["none"])), (["meta", "rows", "empty", "none", "last"], 5, 0, {}))
            self.assertEqual({name: plain(value) for name, value in root.items()}, json.loads(TEXT))
            self.assertEqual([plain(value) for value in root.values()], list(json.loads(TEXT).values()))
            self.assertEqual(dict(root["rows"][9])["name"], ROWS[9]["name"])
            self.assertTrue("meta" in root and "other" not in root and list(root.keys())[1] == "rows")
            self.assertEqual((root.get("last"), root.get("other"), root.get("other", 7)), ("x" * 300, None, 7))
            with self.assertRaises(jx.NoSuchMember):
                root["other"]
            with self.assertRaises(TypeError):
                root[0]

    def test_names_that_repeat_or_have_escapes(self):
        text = b'{"a": 1, "\\u0061": 2, "b\\/~": {"": [3]}, "\\ud800": 4}'
        for names in (False, True):
            with opened(text, names=names) as root:
                with self.assertRaises(jx.NameRepeated):
                    root["a"]
                self.assertTrue("a" in root)
                self.assertEqual(list(root), ["a", "a", "b/~", "\ud800"])
                self.assertEqual(root["b/~"][""][0], 3)
                self.assertEqual([plain(value) for value in root.values()], [1, 2, {"": [3]}, 4])

    HALVES = b'"\\ud800": 1, "b": {"\\udc00x": [2, {"c": 3}]}, "\\ud834\\udd1e": 4'

    def test_half_of_a_surrogate_pair_in_a_name(self):
        behind = b', "filler": "%s"'
        for size in (0, 10, 5000, 70_000, 1_100_000):
            text = b"{%b}" % (self.HALVES + (behind % (b"x" * size) if size else b""))
            for names in (False, True):
                with opened(text, 64 if size < 100 else 4096, names) as root:
                    wanted = json.loads(text)
                    self.assertEqual({name: plain(value) for name, value in dict(root).items()}, wanted)
                    self.assertTrue("\ud800" in root and "\ud801" not in root and "\udc00" not in root)
                    self.assertEqual((root["\ud800"], root.get("\ud801", 5), root.get("\ud800"), root["\ud834\udd1e"]), (1, 5, 1, 4))
                    self.assertEqual(root["b"]["\udc00x"][1]["c"], 3)
                    self.assertEqual((root["b"]["\udc00x"].pointer, root["b"]["\udc00x"].find("/1/c")), (None, 3))
                    with self.assertRaises(jx.NoSuchMember) as caught:
                        root["/\ud801"]
                    self.assertEqual(caught.exception.pointer, "/~1\ud801")
                    with self.assertRaises(jx.BadPointer):
                        root.find("/\ud800")

    def test_views_that_no_pointer_leads_to(self):
        """Below a name that is repeated, or has half of a pair: small, read as a whole, and larger than a MiB."""
        for count, filler in ((3, ""), (3000, ""), (2500, "y" * 500)):
            rows = [{"id": n, "t": ["a", {"x": n}], "s": filler} for n in range(count)]
            inner = {"rows": rows, "by": {"k%d" % n + filler: n for n in range(count)}, "end": [True, None, -1.5]}
            text = b'{"a": %b, "\\ud800": %b, "a": 7}' % ((json.dumps(inner).encode(),) * 2)
            with opened(text, 4096) as root:
                for view in (root["\ud800"], next(iter(root.values()))):
                    self.assertEqual((view["rows"][count - 1]["id"], view["rows"][-2]["t"][1]["x"]), (count - 1, count - 2))
                    self.assertEqual((view.find("/rows/1/t/0"), view.find("/by/k%d%s" % (count - 1, filler))), ("a", count - 1))
                    self.assertEqual(([row["id"] for row in view["rows"]], len(view["rows"])), (list(range(count)), count))
                    self.assertEqual([row["id"] for row in view["rows"][2::-1]], [2, 1, 0])
                    self.assertEqual((dict(view["by"]), list(view["end"])), (inner["by"], inner["end"]))
                    self.assertEqual(view.find_all(["/end/2", "/rows/0/id"]), [-1.5, 0])
                    for pointer, fault, token in (("/rows/%d" % count, jx.PastEnd, 1), ("/rows/0/t/-", jx.AfterLast, 3), ("/by/x", jx.NoSuchMember, 1), ("/rows/01", jx.NotAnIndex, 1), ("/end/0/x", jx.NotAContainer, 2)):
                        with self.assertRaises(fault) as caught:
                            view.find(pointer)
                        self.assertEqual((caught.exception.pointer, caught.exception.token), (pointer, token))
                    with self.assertRaises(jx.BadPointer):
                        view.find("/~2")

    def test_what_is_not_there_and_what_is_no_pointer(self):
        with opened(TEXT) as root:
            rows = root["rows"]
            for pointer, fault, token in (("/400", jx.PastEnd, 0), ("/3/none", jx.NoSuchMember, 1), ("/-", jx.AfterLast, 0), ("/x", jx.NotAnIndex, 0), ("/3/id/0", jx.NotAContainer, 2)):
                with self.assertRaises(fault) as caught:
                    rows.find(pointer)
                self.assertEqual((caught.exception.pointer, caught.exception.token), (pointer, token))
            for pointer in ("x", "/~2"):
                for start in (root, rows):
                    with self.assertRaises(jx.BadPointer):
                        start.find(pointer)
            with self.assertRaises(TypeError):
                root.find_all("/meta")

    def test_roots_of_any_kind(self):
        for text in (b"7", b' "x" ', b"null", b"[]", b"{}", b"\xef\xbb\xbf[1]"):
            with jx.open(io.BytesIO(text), index_of(text, chunk=64, ignore_bom=True)) as root:
                self.assertEqual(root.load(), json.loads(text.decode("utf-8-sig")))
                self.assertEqual(root.kind, jx.Index(text, ignore_bom=True).root.kind)

    def test_random_texts(self):
        rng = random.Random(59)
        for _ in range(150):
            value = made(rng, 4)
            text = json.dumps(value, ensure_ascii=rng.random() < 0.5, indent=rng.choice([None, 0, 3])).encode()
            with opened(text, rng.choice([64, 128, 256]), rng.random() < 0.5) as root:
                self.same(root, value)

    def same(self, found, value):
        if isinstance(value, dict):
            self.assertEqual((list(found), len(found)), (list(value), len(value)))
            for name, inner in found.items():
                self.same(inner, value[name])
                self.same(found[name], value[name])
        elif isinstance(value, list):
            self.assertEqual(len(found), len(value))
            for inner, wanted in zip(found, value):
                self.same(inner, wanted)
        else:
            self.assertEqual(plain(found), value)


class Tables(unittest.TestCase):
    MEMBERS = {"member %d" % n: {"number": n, "same": [n, n]} for n in range(3000)}

    def test_few_chunks_of_an_object_are_read(self):
        text = json.dumps({"front": [], "all": self.MEMBERS, "behind": 7}).encode()
        reads = {}
        for names in (False, True):
            file = Reads(text)
            with jx.open(file, index_of(text, chunk=64, names=names)) as root:
                for pointer, wanted in (("/all/member 1234/number", 1234), ("/behind", 7), ("/all/member 2999/same/1", 2999)):
                    root._text.forget()
                    file.places.clear()
                    self.assertEqual(root.find(pointer), wanted)
                    reads[names, pointer] = len(file.places)
                for pointer in ("/all/member 3000", "/all/member 7/none"):
                    with self.assertRaises(jx.NoSuchMember):
                        root.find(pointer)
        for pointer in ("/all/member 1234/number", "/all/member 2999/same/1"):
            self.assertLess(reads[True, pointer], 20)
            self.assertGreater(reads[False, pointer], len(text) // 64 - 20)
        self.assertLessEqual(reads[True, "/behind"], reads[False, "/behind"])

    def test_a_few_look_ups_read_a_few_chunks(self):
        text = json.dumps({"name %d" % n: "x" * 500 for n in range(3000)}).encode()
        for names, most in ((True, len(text) // 2), (False, 24 * len(text))):
            file = Reads(text)
            with jx.open(file, index_of(text, chunk=1024, names=names)) as root:
                self.assertEqual(root._text.has_names, names)
                self.assertEqual([len(root["name %d" % n]) for n in range(1000, 1030)], [500] * 30)
                self.assertNotIn("name", root)
                self.assertLess(file.count, most)

    def test_tables_stand_behind_the_index(self):
        alone, both = index_of(TEXT, chunk=64), index_of(TEXT, chunk=64, names=True)
        self.assertEqual((both[: len(alone)], both[len(alone) : len(alone) + 8]), (alone, b"\x89jxnam\n\x01"))
        self.assertEqual(index_of(TEXT, chunk=64, names=False), alone)

    def test_wrong_tables_are_told(self):
        both, front = index_of(TEXT, chunk=64, names=True), len(index_of(TEXT, chunk=64))
        wrong = [(both[:front] + b"\x89jxnam\n\x02" + both[front + 8 :], "more bytes than an index has"), (both[: front + 9], "cut short"), (both[:-1], "cut short")]
        wrong += [(both + b"0", "more bytes than an index has"), (both[: front + 12] + b"?" + both[front + 13 :], "damaged"), (both[:-1] + b"?", "damaged")]
        for index, words in wrong:
            with self.assertRaises(jx.BadIndex) as caught:
                jx.open(io.BytesIO(TEXT), index)
            self.assertEqual(str(caught.exception), words)
        with self.assertRaises(jx.Stale):
            jx.open(io.BytesIO(TEXT + b" "), both)

    def test_changes_are_told(self):
        text = json.dumps(self.MEMBERS).encode()
        index = index_of(text, chunk=64, names=True)
        for at in range(0, len(text), 1097):
            other = bytearray(text)
            other[at] ^= 1
            try:
                with jx.open(io.BytesIO(bytes(other)), index) as root:
                    self.assertEqual(root["member 1500"].load(), self.MEMBERS["member 1500"])
            except jx.Changed as changed:
                self.assertTrue(changed.start <= at < changed.end)


class Parts(unittest.TestCase):
    def test_parts_have_all_children(self):
        with opened(TEXT, names=True) as root:
            for count in (1, 2, 7, 400, 65536):
                parts = root["rows"].split(count)
                self.assertLessEqual(len(parts), count)
                self.assertEqual([row for part in parts for row in part], ROWS)
                self.assertEqual([row for part in parts for row in part.load()], ROWS)
                self.assertEqual([(part.first, part.last) for part in parts][0][0], 0)
                self.assertEqual([len(part) for part in parts], [part.last - part.first + 1 for part in parts])
                self.assertEqual([row for part in parts for row in json.loads(b"[" + bytes(part) + b"]")], ROWS)
                pairs = [pair for part in root.split(count) for pair in part]
                self.assertEqual(dict(pairs), json.loads(TEXT))
            self.assertEqual((root["empty"].split(3), root["none"].split(3)), ([], []))
            for count in (0, 65537):
                with self.assertRaises(ValueError):
                    root.split(count)
            with self.assertRaises(TypeError):
                root.split(True)

    def test_parts_are_pickled(self):
        with tempfile.TemporaryDirectory() as folder:
            path = os.path.join(folder, "dump.json")
            with open(path, "wb") as file:
                file.write(TEXT)
            jx.save(path, chunk=256, names=True)
            with jx.open(path) as root:
                sent = [pickle.dumps(part) for part in root["rows"].split(4)]
                view = pickle.loads(pickle.dumps(root["rows"]))
            self.assertEqual(view[3].load(), ROWS[3])
            parts = [pickle.loads(one) for one in sent]
            self.assertEqual([row for part in parts for row in part], ROWS)
            with concurrent.futures.ProcessPoolExecutor(2) as pool:
                self.assertEqual([row for rows in pool.map(list, parts) for row in rows], ROWS)
            view.close()
        with opened(TEXT) as root, self.assertRaises(TypeError):
            pickle.dumps(root)

    def test_members_larger_than_a_step(self):
        value = {"small": 1, "large \"name\"": ["x" * 1000] * 3000, "text": "y" * 2_500_000, "end": None}
        text = json.dumps(value, indent=2).encode()
        with opened(text, 4096) as root:
            self.assertEqual({name: plain(one) for name, one in root.items()}, value)
            self.assertEqual(dict(pair for part in root.split(3) for pair in part), value)


    def test_large_members_between_blanks(self):
        value = {"first": 1, "large": ["x" * 1000] * 1200, "larger": ["y" * 1000] * 1500, "last": [2]}
        for blanks in (4096, 70_000):
            gap = " " * (blanks - 1) + "\n"
            for front, colon, behind in ((gap, "", ""), (gap, gap, gap)):
                members = ['%s"%s"%s:%s%s%s' % (front, name, colon, colon, json.dumps(one), behind) for name, one in value.items()]
                text = ("{" + ",".join(members) + "}").encode()
                with opened(text, 4096) as root:
                    self.assertEqual((list(root), list(root.keys())), (list(value), list(value)))
                    self.assertEqual({name: plain(one) for name, one in root.items()}, value)
                    self.assertEqual([root[name] for name in root], list(root.values()))

    def test_a_large_member_is_not_read_for_the_names(self):
        rows = "[%s]" % ",".join(['{"id": 1, "s": "]},{"}'] * 300_000)
        text = ('{"meta": {"a": [1, "]"]}, "n": "\\\\", "rows": %s, "end": 2}' % rows).encode()
        file = Reads(text)
        with jx.open(file, index_of(text)) as root:
            self.assertEqual(list(root), ["meta", "n", "rows", "end"])
            self.assertEqual([type(one) for one in root.values()], [jx.ObjectView, str, jx.ArrayView, int])
            self.assertLess(file.count, len(text) // 2)


class Faults(unittest.TestCase):
    def test_changes_are_told(self):
        index = index_of(TEXT, chunk=64)
        for at in range(0, len(TEXT), 97):
            other = bytearray(TEXT)
            other[at] ^= 1
            try:
                with jx.open(io.BytesIO(bytes(other)), index) as root:
                    self.assertEqual(root["rows"][200].load(), ROWS[200])
            except jx.Changed as changed:
                self.assertTrue(changed.start <= at < changed.end)
                self.assertEqual(str(changed), "changed in %d..%d" % (changed.start, changed.end))

    def test_a_read_behind_a_change_goes_on(self):
        file = io.BytesIO(TEXT)
        with jx.open(file, index_of(TEXT, chunk=64)) as root:
            row = root["rows"][200]
            start = row.span[0] + 1
            file.getbuffer()[start] ^= 1
            root._text.forget()
            with self.assertRaises(jx.Changed):
                row.load()
            file.getbuffer()[start] ^= 1
            self.assertEqual(row.load(), ROWS[200])

    def test_other_sizes_and_wrong_indexes(self):
        index = index_of(TEXT, chunk=64)
        with self.assertRaises(jx.Stale):
            jx.open(io.BytesIO(TEXT + b" "), index)
        for wrong, words in ((b"{}", "not a saved index"), (index[:7] + b"\x02" + index[8:], "another version"), (index[:-1], "cut short"), (index + b"0", "more bytes than an index has"), (index[:90] + b"?" + index[91:], "damaged")):
            with self.assertRaises(jx.BadIndex) as caught:
                jx.open(io.BytesIO(TEXT), wrong)
            self.assertEqual(str(caught.exception), words)
        self.assertTrue(issubclass(jx.Changed, jx.Stale) and issubclass(jx.Stale, ValueError) and issubclass(jx.BadIndex, ValueError))

    def test_files_that_are_not_there_or_end_early(self):
        with tempfile.TemporaryDirectory() as folder:
            path = os.path.join(folder, "t")
            with self.assertRaises(FileNotFoundError):
                jx.save(path)
            with open(path, "wb") as file:
                file.write(TEXT)
            with self.assertRaises(FileNotFoundError):
                jx.open(path)
            self.assertEqual(jx.save(path, chunk=64), path + ".jxi")
            self.assertEqual(sorted(os.listdir(folder)), ["t", "t.jxi"])
            with jx.open(path) as root, open(path, "r+b") as file:
                file.truncate(100)
                with self.assertRaises(jx.Changed):
                    root["rows"][399].load()
            with self.assertRaises(ValueError):
                root["rows"]

    def test_an_index_does_not_take_the_place_of_its_text(self):
        with tempfile.TemporaryDirectory() as folder:
            path, link = os.path.join(folder, "t"), os.path.join(folder, "link")
            pathlib.Path(path).write_bytes(TEXT)
            os.symlink(path, link)
            with open(path, "rb") as file:
                for text, index in ((path, path), (path.encode(), pathlib.Path(path)), (link, path), (path, os.path.join(folder, ".", "t")), (file, path)):
                    with self.assertRaisesRegex(ValueError, "the text itself"):
                        jx.save(text, index)
            self.assertEqual((pathlib.Path(path).read_bytes(), sorted(os.listdir(folder))), (TEXT, ["link", "t"]))

    def test_a_file_without_bytes_yet_is_not_saved(self):
        with tempfile.TemporaryDirectory() as folder:
            for buffering in (-1, 0):
                away, into = os.pipe()
                os.set_blocking(away, False)
                with open(away, "rb", buffering) as file, open(into, "wb", 0) as writer:
                    writer.write(b"[1]")
                    with self.assertRaises(BlockingIOError):
                        jx.save(file, os.path.join(folder, "i"))
            self.assertEqual(os.listdir(folder), [])

        class Waits(io.BytesIO):
            def read(self, size=-1):
                return None

        with self.assertRaises(BlockingIOError):
            jx.open(Waits(TEXT), index_of(TEXT))

    def test_a_map_is_opened(self):
        with tempfile.TemporaryFile() as file:
            file.write(TEXT)
            file.flush()
            mapped = mmap.mmap(file.fileno(), 0, access=mmap.ACCESS_READ)
            with jx.open(mapped, index_of(TEXT)) as root:
                self.assertEqual(root["rows"][7].load(), ROWS[7])
            mapped.close()

    def test_a_read_may_give_any_buffer(self):
        for kind in (bytearray, memoryview):

            class Given(io.BytesIO):
                def read(self, size=-1):
                    return kind(super().read(size))

            with jx.open(Given(TEXT), index_of(TEXT, chunk=64)) as root:
                self.assertEqual(root["rows"][7].load(), ROWS[7])
            for size in (1, 1000):
                chunks = [kind(TEXT[at : at + size]) for at in range(0, len(TEXT), size)]
                with tempfile.TemporaryDirectory() as folder, open(jx.save(chunks, os.path.join(folder, "i")), "rb") as file:
                    self.assertEqual(file.read(), index_of(TEXT))

    def test_what_is_no_text_is_not_saved(self):
        with tempfile.TemporaryDirectory() as folder:
            path = os.path.join(folder, "i")
            for text, kind, offset in ((b"[1,]", jx.Kind.STOPPED, 3), (b"[1", jx.Kind.TRUNCATED, 2), (b"[[[]]]", jx.Kind.TOO_DEEP, 2), (b'{"a":', jx.Kind.TRUNCATED, 5)):
                with self.assertRaises(jx.Refused) as caught:
                    jx.save(io.BytesIO(text), path, depth=2, names=offset != 3)
                self.assertEqual((caught.exception.kind, caught.exception.offset), (kind, offset))
            for chunk in (0, 63, 96, 2**21, 2**64 + 64):
                with self.assertRaises(ValueError):
                    jx.save(io.BytesIO(b"1"), path, chunk=chunk)
            with self.assertRaises(TypeError):
                jx.save(io.BytesIO(b"1"))
            with self.assertRaises(TypeError):
                jx.save(io.StringIO("1"), path)
            self.assertEqual(os.listdir(folder), [])


class Costs(unittest.TestCase):
    """Look-ups by the library begin at the root, so they are counted. A time is the processor's, and the least of many."""

    def test_a_loop_asks_the_library_seldom(self):
        for count, filler, most in ((500, "", 4), (8000, "", 8), (2500, "y" * 500, 20)):
            value = {"name %d" % n: {"n": n, "s": filler} for n in range(count)}
            with opened(json.dumps(value).encode(), 32768) as root, Asked() as asked:
                self.assertEqual({name: one["n"] for name, one in dict(root).items()}, {name: one["n"] for name, one in value.items()})
                self.assertLess(asked.count, most)
            rows = [{"id": n, "in": [n], "s": filler} for n in range(count)]
            with opened(json.dumps(rows).encode(), 32768) as root, Asked() as asked:
                self.assertEqual([row["id"] for row in root], list(range(count)))
                self.assertEqual([root[n]["in"][0] for n in range(count)], list(range(count)))
                self.assertEqual([row["id"] for row in reversed(root)], list(range(count - 1, -1, -1)))
                self.assertLess(asked.count, 80)

    def test_elements_of_any_size_in_any_order(self):
        rng = random.Random(5)
        for small, large in ((1, 1), (1, 5000), (3000, 3000), (1, 300_000)):
            rows = [rng.choice([n, "x" * rng.choice([small, small, small, large]), [n] * 3, {}]) for n in range(600)]
            with opened(json.dumps(rows).encode(), 4096) as root:
                self.assertEqual([plain(one) for one in root], rows)
                self.assertEqual([plain(root[n]) for n in range(600)], rows)
                self.assertEqual([plain(root[n]) for n in range(-1, -601, -1)], rows[::-1])
                for places in (slice(5, 500, 3), slice(500, 5, -1), slice(None, None, 100), slice(599, None, -90)):
                    self.assertEqual([plain(one) for one in root[places]], rows[places])
                for place in rng.sample(range(600), 50):
                    self.assertEqual(plain(root[place]), rows[place])
                with self.assertRaises(jx.PastEnd):
                    root[600]

    def test_numbers_that_python_does_not_read_stop_no_other(self):
        text = b"[1, %b, 2]" % (b"9" * 5000)
        with opened(text) as root:
            if hasattr(__import__("sys"), "set_int_max_str_digits"):
                elements = iter(root)
                self.assertEqual(next(elements), 1)
                with self.assertRaises(ValueError):
                    next(elements)
            self.assertEqual(root[2], 2)

    def takes_less(self, call, count, micros):
        """Whether one of a call's `count` parts takes less than these microseconds in one of sixty tries."""
        least = 1e9
        for _ in range(60):
            began = time.process_time()
            call()
            least = min(least, (time.process_time() - began) / count * 1e6)
            if least < micros:
                return
            time.sleep(0.25)
        self.fail("%.2f microseconds, not %.2f" % (least, micros))

    @unittest.skipUnless(_engine.IS_NATIVE, "by ctypes it takes some times as long")
    def test_look_ups_of_children(self):
        rows = [{"id": n, "name": "n%d" % n, "tags": ["a", "b"]} for n in range(20_000)]
        with opened(json.dumps(rows).encode(), 32768) as root:
            views = list(root)
            self.takes_less(lambda: [row["id"] for row in views], len(views), 20)
            self.takes_less(lambda: [row["id"] for row in root], len(views), 20)
            self.takes_less(lambda: [root[n] for n in range(20_000)], len(views), 20)
        with opened(json.dumps({"name %d" % n: n for n in range(8000)}).encode(), 32768) as root:
            self.takes_less(lambda: dict(root), 8000, 40)
        with opened(json.dumps(list(range(1_000_000))).encode(), 32768) as root:
            self.takes_less(lambda: list(root), 1_000_000, 2)


class Threads(unittest.TestCase):
    def test_threads_share_a_view(self):
        with tempfile.TemporaryDirectory() as folder:
            path = os.path.join(folder, "t")
            with open(path, "wb") as file:
                file.write(TEXT)
            jx.save(path, chunk=64)
            with jx.open(path) as root, concurrent.futures.ThreadPoolExecutor(8) as pool:
                self.assertEqual([row.load() for row in pool.map(lambda n: root["rows"][n], range(400))], ROWS)


if __name__ == "__main__":
    unittest.main()
