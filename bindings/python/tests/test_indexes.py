"""Indexes of texts, and the values in them."""
import gc
import io
import json
import os
import random
import subprocess
import sys
import tempfile
import threading
import time
import unittest

import jx
from jx import _engine

from .test_values import BAD, FOUND, NOT_FOUND, TEXT


def plain(value):
    """The value of some bytes, by its children alone."""
    if value.kind is jx.ValueKind.OBJECT:
        return {name: plain(child) for name, child in value.items()}
    if value.kind is jx.ValueKind.ARRAY:
        return [plain(value[at]) for at in range(len(value))]
    return value.load()


def some_value(chance, depth=0):
    """A value with names and strings that are spelt in several ways."""
    kind = chance.randrange(6 if depth < 5 else 3)
    if kind == 3:
        return [some_value(chance, depth + 1) for _ in range(chance.randrange(5))]
    if kind > 3:
        names = ("a", "b", "é", "a/b", "m~n", "", "\U0001d11e", "\n", '"')
        return {name: some_value(chance, depth + 1) for name in chance.sample(names, chance.randrange(len(names)))}
    return chance.choice((None, True, False, 0, -1.5e3, "", "a", "\\ é \U0001d11e"))


class Lookups(unittest.TestCase):
    def test_an_index_answers_as_get_does(self):
        index = jx.Index(TEXT)
        for pointer in (*FOUND, *NOT_FOUND, *BAD):
            try:
                wanted = bytes(jx.get(TEXT, pointer))
            except (jx.NotFound, jx.BadPointer) as fault:
                with self.assertRaises(type(fault)) as caught:
                    index[pointer]
                self.assertEqual(str(caught.exception), str(fault))
            else:
                self.assertEqual(bytes(index[pointer]), wanted, pointer)
                self.assertEqual(bytes(index[pointer].bytes), wanted, pointer)

    def test_get_stands_in_for_what_is_not_there_alone(self):
        index = jx.Index(TEXT)
        for pointer in NOT_FOUND:
            self.assertIsNone(index.get(pointer))
            self.assertEqual(index.get(pointer, 7), 7)
            self.assertNotIn(pointer, index)
        for pointer in FOUND:
            self.assertEqual(index.get(pointer, 7), index[pointer])
            self.assertIn(pointer, index)
        for pointer in BAD:
            with self.assertRaises(jx.BadPointer):
                index.get(pointer)
        for pointer in (b"/a", None, 0):
            for call in (index.get, index.__getitem__, index.__contains__):
                with self.assertRaises(TypeError):
                    call(pointer)

    def test_names_are_equal_where_their_code_units_are(self):
        text = b'{"\\ud834\\udd1e":1,"\\ud834":2,"\xf0\x9d\x84\x9e":3}'
        index = jx.Index(text)
        for call in (lambda: index["/\U0001d11e"], lambda: index.root["\U0001d11e"], lambda: jx.get(text, "/\U0001d11e")):
            with self.assertRaises(jx.NameRepeated):
                call()
        self.assertEqual(index.root["\ud834"].load(), 2)
        self.assertIsNone(index.root["\ud834"].pointer)
        with self.assertRaises(jx.NoSuchMember):
            index.root["\udd1e"]

    def test_a_text_that_is_refused(self):
        for text, kind, offset in ((b"[1,]", jx.Kind.STOPPED, 3), (b"[", jx.Kind.TRUNCATED, 1), (b"", jx.Kind.TRUNCATED, 0)):
            with self.assertRaises(jx.Refused) as caught:
                jx.Index(text)
            self.assertEqual((caught.exception.kind, caught.exception.offset), (kind, offset))
        with self.assertRaises(jx.Refused):
            jx.Index(b'{"a":1,"a":2}', unique_names=True)
        self.assertEqual(jx.Index(b"\xef\xbb\xbf[1]", ignore_bom=True)["/0"].row.start, 4)
        with self.assertRaises(jx.Refused):
            jx.Index(b"[[1]]", depth=1)


class Children(unittest.TestCase):
    def test_rows_and_children(self):
        index = jx.Index(TEXT)
        self.assertEqual(len(index), len(list(index)))
        self.assertEqual(index.row(0), jx.Row(jx.ValueKind.OBJECT, 0, len(TEXT), None, None, 0))
        self.assertEqual([child.name for child in index.root.values()], ["a", "", "m~n", "a/b", "é", "r", "r"])
        self.assertEqual([child.load() for child in index["/a"]], [1, {"b": 2}, []])
        self.assertEqual((len(index["/a"]), len(index["/a/0"]), len(index["/é"])), (3, 0, 0))
        self.assertEqual(index["/a/1/b"].parent.parent, index["/a"])
        self.assertIsNone(index.root.parent)
        for number in (len(index), -1, 2**70):
            with self.assertRaises(IndexError):
                index.row(number)

    def test_elements_by_their_places(self):
        value = jx.Index(b"[10, 20, [], 30]").root
        self.assertEqual((value[0].load(), value[3].load(), value[-1].load(), value[-4].load()), (10, 30, 30, 10))
        self.assertEqual([child.load() for child in value[1:]], [20, [], 30])
        self.assertEqual([child.load() for child in value[::-2]], [30, 20])
        self.assertEqual(value[9:], [])
        for place in (4, -5, 2**70, -(2**70)):
            with self.assertRaises(IndexError):
                value[place]
        for place in (1.5, None, b"0"):
            with self.assertRaises(TypeError):
                value[place]
        for value, place in ((value[0], 0), (jx.Index(b'{"0":1}').root, 0)):
            with self.assertRaisesRegex(TypeError, "only an array has places"):
                value[place]

    def test_members_by_their_names(self):
        root = jx.Index(TEXT).root
        for name in ("a", "", "m~n", "a/b", "é"):
            self.assertEqual(root[name].name, name)
            self.assertEqual(root.get(name), root[name])
            self.assertIn(name, root)
        with self.assertRaises(jx.NameRepeated):
            root["r"]
        with self.assertRaises(jx.NameRepeated):
            root.get("r")
        self.assertIn("r", root)
        self.assertNotIn("c", root)
        self.assertEqual(root.get("c", 7), 7)
        with self.assertRaises(jx.NoSuchMember) as caught:
            root["a/c"]
        self.assertEqual(caught.exception.pointer, "/a~1c")
        with self.assertRaisesRegex(TypeError, "only an object has members"):
            root["a"]["b"]
        with self.assertRaises(TypeError):
            b"a" in root

    def test_an_object_is_iterated_as_a_view_of_it_is(self):
        for text in (b'{"a": 1, "\\u0062": {"c": []}, "\\ud800": 3, "": "x"}', b'{"a": 1, "a": 2}', b"{}", b"[1, [2]]", b"[]"):
            with tempfile.TemporaryDirectory() as folder, jx.open(io.BytesIO(text), jx.save(io.BytesIO(text), os.path.join(folder, "i"))) as view:
                value = jx.Index(text).root
                self.assertEqual(len(list(value)), len(view))
                if isinstance(view, jx.ArrayView):
                    self.assertEqual([child.load() for child in value], view.load())
                    for call in (value.keys, value.values, value.items):
                        with self.assertRaises(TypeError):
                            call()
                    continue
                self.assertEqual((list(value), list(value.keys())), (list(view), list(view.keys())))
                self.assertEqual([name for name, _ in value.items()], list(view))
                self.assertEqual([child.load() for _, child in value.items()], [child.load() for child in value.values()])
                if len(set(view)) == len(view):
                    self.assertEqual({name: child.load() for name, child in dict(value).items()}, json.loads(text))
        self.assertEqual(list(jx.Index(b"7").root), [])

    def test_members_of_large_objects(self):
        names = ["k%d" % at for at in range(500)] + ["a/b", "m~n", "\n", "é"]
        for text in (json.dumps([{name: at for at, name in enumerate(names)}]), '[{"r":1,"r":2,' + json.dumps(dict.fromkeys(names, 3))[1:] + "]"):
            member = jx.Index(text.encode()).root[0]
            for name in names:
                self.assertEqual(member[name].name, name)
            self.assertNotIn("k500", member)
            self.assertEqual("r" in member, '"r"' in text)
        with self.assertRaises(jx.NameRepeated):
            member["r"]
        # No pointer leads to a member of an object whose name is repeated.
        inner = json.dumps(dict.fromkeys(names, 3))
        second = jx.Index(('{"o":%s,"o":%s}' % (inner, inner)).encode()).root
        for child in second.values():
            self.assertIsNone(child.pointer)
            self.assertEqual(child["k7"].parent, child)
            with self.assertRaises(jx.NoSuchMember):
                child["k500"]

    def test_random_texts_come_to_what_json_makes_of_them(self):
        chance = random.Random(7)
        for _ in range(60):
            wanted = some_value(chance)
            text = json.dumps(wanted, ensure_ascii=chance.random() < 0.5, indent=chance.choice((None, 1))).encode()
            index = jx.Index(text)
            self.assertEqual(plain(index.root), wanted)
            for value in index:
                self.assertEqual(index[value.pointer], value)
                self.assertEqual(value.load(), json.loads(bytes(jx.get(text, value.pointer))))
                if value.parent is not None:
                    key = value.row.place if value.name is None else value.name
                    self.assertEqual(value.parent[key], value)

    def test_a_text_of_many_values(self):
        text = json.dumps({"k%d" % at: [at] * 3 for at in range(3000)}).encode()
        index = jx.Index(text)
        self.assertEqual(len(index), 1 + 3000 * 4)
        self.assertEqual(index["/k2999/2"].load(), 2999)
        self.assertEqual(len(jx.Index(b"[" + b"1," * 9999 + b"1]")), 10001)
        deep = b"[" * 60000 + b"]" * 60000
        index = jx.Index(deep, depth=60000)
        self.assertEqual((len(index), len(index.row(59999)), len(list(index)[-1])), (60000, 6, 0))
        self.assertEqual(index["/0" * 59999].number, 59999)
        self.assertEqual(list(index)[59999].pointer, "/0" * 59999)


class Values(unittest.TestCase):
    def test_equal_values_are_the_same_value_of_the_same_index(self):
        index, other = jx.Index(TEXT), jx.Index(TEXT)
        self.assertEqual(index["/a/1"], index["/a"][1])
        self.assertEqual(len({index["/a/1"], index["/a"][1], index["/a/0"]}), 2)
        self.assertNotEqual(index["/a"], other["/a"])
        self.assertNotEqual(index["/a"], [1, {"b": 2}, []])
        self.assertTrue(index["/a/2"])

    def test_pointers(self):
        index = jx.Index(TEXT)
        for pointer in FOUND:
            self.assertEqual(index[pointer].pointer, pointer)
        self.assertEqual([child.pointer for child in index.root.values()][-2:], [None, None])

    def test_bytes_are_a_view_of_what_cannot_change(self):
        self.assertIs(jx.Index(TEXT).root.bytes.obj, TEXT)
        data = bytearray(b'{"a": [1]}')
        index = jx.Index(data)
        data[1:4] = b"garbage"
        self.assertEqual((index["/a/0"].load(), bytes(index.root)), (1, b'{"a": [1]}'))
        data = bytearray(b"[1]")
        index = jx.Index(memoryview(data).toreadonly())
        with self.assertRaises(BufferError):
            data.append(32)
        self.assertEqual(index["/0"].load(), 1)
        del index
        gc.collect()
        data.append(32)

    def test_values_keep_their_index(self):
        values = [jx.Index(b'{"a":[%d]}' % at)["/a/0"] for at in range(100)]
        gc.collect()
        self.assertEqual([value.load() for value in values], list(range(100)))

    def test_threads_share_an_index(self):
        text = json.dumps([{"id": at} for at in range(2000)]).encode()
        index, wrong = jx.Index(text), []

        def work(start):
            for at in range(start, 2000, 7):
                if index["/%d/id" % at].load() != at or index.root[at]["id"].load() != at:
                    wrong.append(at)

        threads = [threading.Thread(target=work, args=(start,)) for start in range(20)]
        for thread in threads:
            thread.start()
        for thread in threads:
            thread.join()
        self.assertEqual(wrong, [])


    def test_threads_list_the_children_at_once(self):
        count = 100000 if _engine.IS_NATIVE else 3000
        text = json.dumps([{"id": at} for at in range(count)]).encode()
        for _ in range(3):
            index, told = jx.Index(text), []

            def work(start):
                if start % 2:
                    told.append(len(index.root) == count and index.root[start]["id"].load() == start)
                else:
                    told.append(all(index["/%d/id" % at].load() == at for at in range(start, start + 200)))

            threads = [threading.Thread(target=work, args=(start,)) for start in range(16)]
            for thread in threads:
                thread.start()
            for thread in threads:
                thread.join()
            self.assertEqual(told, [True] * 16)


class Costs(unittest.TestCase):
    """A time is the least of many, so that a busy machine does not tell."""

    ROWS = 60000

    @classmethod
    def setUpClass(cls):
        cls.text = json.dumps({"rows": [{"id": at, "name": "n%d" % at} for at in range(cls.ROWS)]}).encode()

    def takes_less(self, call, count, micros):
        """Whether one of a call's `count` parts takes less than these microseconds in one of sixty tries, which take a while."""
        least = 1e9
        for _ in range(60):
            began = time.perf_counter()
            call()
            least = min(least, (time.perf_counter() - began) / count * 1e6)
            if least < micros:
                return
            time.sleep(0.25)
        self.fail("%.2f microseconds, not %.2f" % (least, micros))

    @unittest.skipUnless(_engine.IS_NATIVE, "by ctypes it takes some times as long")
    def test_look_ups_and_steps(self):
        index = jx.Index(self.text)
        pointers = ["/rows/%d/id" % (at * 7919 % self.ROWS) for at in range(2000)]
        rows = index["/rows"]
        self.takes_less(lambda: [index[pointer] for pointer in pointers], 2000, 5)
        self.takes_less(lambda: [len(rows) for _ in range(2000)], 2000, 2)
        self.takes_less(lambda: list(rows), self.ROWS, 2)
        self.takes_less(lambda: [rows[at] for at in range(0, self.ROWS, 30)], self.ROWS / 30, 2)

    @unittest.skipUnless(_engine.IS_NATIVE, "by ctypes it takes some times as long")
    def test_small_texts_take_at_most_the_time_of_json(self):
        text = b'{"id": 7, "name": "Ann", "b":0}'
        theirs = 1e9
        for _ in range(20):
            began = time.perf_counter()
            for _ in range(1000):
                json.loads(text)
            theirs = min(theirs, (time.perf_counter() - began) / 1000 * 1e6)
        for call in (jx.check, jx.verdict, jx.compact):
            self.takes_less(lambda: [call(text) for _ in range(1000)], 1000, theirs)

    def test_memory_is_what_the_library_takes_and_the_children(self):
        # In a process of its own, since memory that was given back may be taken again.
        script = (
            "import sys, jx\n"
            "def resident(): return int(open('/proc/self/statm').read().split()[1]) * 4096\n"
            "text = b'[' + b'{\"id\":1,\"n\":\"ab\"},' * 200000 + b'0]'\n"
            "before = resident(); index = jx.Index(text); made = resident()\n"
            "len(index.root); listed = resident()\n"
            "print((made - before) // len(index), (listed - made) // len(index))"
        )
        told = subprocess.run([sys.executable, "-c", script], capture_output=True, text=True, check=True, env=dict(os.environ, MALLOC_PERTURB_=""))
        made, listed = map(int, told.stdout.split())
        self.assertLess(made, 200, told.stdout)
        self.assertLess(listed, 24, told.stdout)

    def test_memory_is_given_back(self):
        def resident():
            with open("/proc/self/statm") as file:
                return int(file.read().split()[1]) * 4096

        text = json.dumps([{"id": at} for at in range(2000)]).encode()

        def work():
            for _ in range(60):
                index = jx.Index(text)
                self.assertEqual((len(index.root), index.get("/x", 7)), (2000, 7))
                self.assertRaises(jx.Refused, jx.Index, text[:-1])
                self.assertRaises(KeyError, index.__getitem__, "/1/x")

        work()
        before = resident()
        work()
        self.assertLess(resident() - before, 20 << 20)
