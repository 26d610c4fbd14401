"""Values by pointer, and elements of sequences."""
import unittest

import jx

TEXT = b'{"a":[1,{"b":2},[]],"":"x","m~n":null,"a/b":true,"\\u00e9":{},"r":1,"r":2}'
FOUND = {"": TEXT, "/a": b'[1,{"b":2},[]]', "/a/0": b"1", "/a/1/b": b"2", "/a/2": b"[]", "/": b'"x"', "/m~0n": b"null", "/a~1b": b"true", "/é": b"{}"}
NOT_FOUND = {
    "/c": jx.NoSuchMember,
    "/é/a": jx.NoSuchMember,
    "/r": jx.NameRepeated,
    "/a/01": jx.NotAnIndex,
    "/a/x": jx.NotAnIndex,
    "/a/٣": jx.NotAnIndex,
    "/a/3": jx.PastEnd,
    "/a/99999999999999999999999999": jx.PastEnd,
    "/a/-": jx.AfterLast,
    "/a/0/0": jx.NotAContainer,
    "/a/1/b/c": jx.NotAContainer,
}
BAD = ("a", "/~", "/~2", "/a/\udc80")


class Pointers(unittest.TestCase):
    def test_a_value_is_a_view_of_the_data(self):
        for pointer, wanted in FOUND.items():
            found = jx.get(TEXT, pointer)
            self.assertEqual((bytes(found), found.obj is TEXT), (wanted, True), pointer)

    def test_what_is_not_there_is_a_key_or_an_index_error(self):
        for pointer, fault in NOT_FOUND.items():
            with self.assertRaises(fault) as caught:
                jx.get(TEXT, pointer)
            self.assertIsInstance(caught.exception, (KeyError, IndexError))
            self.assertIn("token ", str(caught.exception))
            self.assertEqual(jx.get(TEXT, pointer, 7), 7)

    def test_wrong_pointers_are_refused_also_with_a_default(self):
        for pointer in BAD:
            with self.assertRaises(jx.BadPointer):
                jx.get(TEXT, pointer, None)
        for pointer in (b"/a", None, 1):
            with self.assertRaises(TypeError):
                jx.get(TEXT, pointer)

    def test_a_text_that_is_refused(self):
        with self.assertRaises(jx.Refused) as caught:
            jx.get(b"[1,", "/0", None)
        self.assertEqual((caught.exception.kind, caught.exception.offset), (jx.Kind.TRUNCATED, 3))

    def test_loads_reads_just_the_value(self):
        self.assertEqual(jx.loads(TEXT, "/a"), [1, {"b": 2}, []])
        self.assertEqual(jx.loads(b"[1.5]", "/0", parse_float=str), "1.5")

    def test_many_pointers_at_once(self):
        self.assertEqual([bytes(it) for it in jx.get_all(TEXT, FOUND)], list(FOUND.values()))
        self.assertEqual(jx.get_all(TEXT, ["/c", "/a/0"], None)[0], None)
        with self.assertRaises(jx.NoSuchMember):
            jx.get_all(TEXT, ["/a", "/c"])
        with self.assertRaises(jx.BadPointer):
            jx.get_all(TEXT, ["/a", "a"], None)
        self.assertEqual(jx.get_all(TEXT, []), [])
        for pointers in ([], ["/a"], ["a"]):
            with self.assertRaises(jx.Refused):
                jx.get_all(b"nulx", pointers, None)
        # A pointer may be long, may repeat another one, and may hold a NUL.
        self.assertEqual([bytes(it) for it in jx.get_all(b'{"a\\u0000b":1}', ["/a\0b", "", "/a\0b"])], [b"1", b'{"a\\u0000b":1}', b"1"])
        self.assertEqual(jx.get_all(b"[]", ["/0" * 65535], None), [None])

    def test_one_pointer_in_place_of_several_is_refused_with_what_to_do(self):
        with self.assertRaisesRegex(TypeError, r"pass \['/a'\], or call get"):
            jx.get_all(TEXT, "/a")

    def test_a_value_of_64_mb_is_not_copied(self):
        data = bytearray(b'{"a":"' + b"x" * (64 << 20) + b'","b":[1]}')
        found = jx.get(data, "/b/0")
        self.assertIs(found.obj, data)
        self.assertEqual(bytes(found), b"1")


class Sequences(unittest.TestCase):
    def test_elements_with_their_verdicts(self):
        found = jx.elements(b"0\x1etrue\n\x1etrue\x1e\x1e[1\n\x1e{}\n")
        kinds = [(it.start, it.end, it.verdict.kind.name) for it in found]
        wanted = [(0, 1, "UNMARKED"), (2, 7, "ACCEPTED"), (8, 12, "MAY_BE_CUT"), (14, 17, "TRUNCATED"), (18, 21, "ACCEPTED")]
        self.assertEqual(kinds, wanted)
        self.assertEqual(bytes(found[1].bytes), b"true\n")
        self.assertEqual(jx.elements(b""), [])

    def test_names_in_elements(self):
        text = b'\x1e{"a":1,"a":2}\n'
        self.assertTrue(jx.elements(text)[0].verdict.is_accepted)
        self.assertEqual(jx.elements(text, unique_names=True)[0].verdict, jx.Verdict(jx.Kind.REPEATED_NAME, 8))
