"""Texts that are edited."""
import copy
import gc
import json
import pickle
import threading
import unittest

import jx

from .test_texts import BUFFERS, lines


class Edits(unittest.TestCase):
    def test_every_text_of_the_table_typed_byte_by_byte(self):
        for kind, offset, depth, text in lines():
            document = jx.Document(depth=depth)
            for at in range(len(text)):
                document.edit(at, at, text[at : at + 1])
            self.assertEqual(document.verdict(), jx.Verdict(kind, offset), text)
            self.assertEqual(bytes(document), text)

    def test_every_buffer_may_be_put_in(self):
        for buffer in BUFFERS:
            document = jx.Document(buffer(b"[1]"))
            document.edit(1, 2, buffer(b"2,3"))
            self.assertEqual(bytes(document), b"[2,3]")
            self.assertTrue(document.verdict().is_accepted)

    def test_a_document_has_no_bytes_unless_it_is_told_some(self):
        self.assertEqual((len(jx.Document()), bytes(jx.Document())), (0, b""))
        self.assertEqual(jx.Document().verdict(), jx.Verdict(jx.Kind.TRUNCATED, 0))

    def test_ranges_out_of_bounds_leave_all_as_it_was(self):
        document = jx.Document(b"[1]")
        for start, end in ((2, 1), (0, 4), (4, 4), (-1, 0), (0, -1), (0, 2**64), (2**80, 2**80)):
            with self.assertRaises(IndexError):
                document.edit(start, end, b"7")
        for start, end, data, fault in (("0", 1, b"", TypeError), (0.5, 1, b"", TypeError), (0, 1, "2", TypeError), (0, 1, None, TypeError)):
            with self.assertRaises(fault):
                document.edit(start, end, data)
        self.assertEqual(bytes(document), b"[1]")

    def test_a_byte_order_mark_may_come_and_go(self):
        document = jx.Document(b"\xef\xbb\xbf1", ignore_bom=True)
        self.assertTrue(document.verdict().is_accepted)
        document.edit(1, 2)
        self.assertEqual(document.verdict(), jx.Verdict(jx.Kind.STOPPED, 1))
        document.edit(0, 2)
        self.assertTrue(document.verdict().is_accepted)
        self.assertEqual(jx.Document(b"\xef\xbb\xbf1").verdict(), jx.Verdict(jx.Kind.STOPPED, 0))

    def test_wrong_settings_are_refused(self):
        for depth, fault in ((-1, ValueError), (65536, ValueError), (1.5, TypeError)):
            with self.assertRaises(fault):
                jx.Document(b"1", depth=depth)
        with self.assertRaises(TypeError):
            jx.Document(b"1", unique_names=True)
        with self.assertRaisesRegex(TypeError, "encode"):
            jx.Document("1")


class Faults(unittest.TestCase):
    def test_lines_and_columns_are_those_of_check(self):
        for text in (b'{"a": 1,\n "b": x}', '["é𝄞", x]'.encode(), b"[1,\n2,\n\n3 4]", b"[1 2", b"[1\n", b"[" + b"1,\n" * 1_000_000 + b"x]"):
            with self.assertRaises(jx.Refused) as wanted:
                jx.check(text)
            with self.assertRaises(jx.Refused) as found:
                jx.Document(text).check()
            self.assertEqual(str(found.exception), str(wanted.exception))
            self.assertEqual(found.exception.verdict, wanted.exception.verdict)

    def test_check_says_nothing_of_a_text(self):
        self.assertIsNone(jx.Document(b"[1]").check())


class Slices(unittest.TestCase):
    def test_slices_are_those_of_the_bytes(self):
        text = json.dumps(list(range(6000))).encode()
        document = jx.Document(text)
        for part in (slice(None), slice(3, 9), slice(20_000, 30_000), slice(-5, None), slice(9, 3), slice(None, None, 7), slice(None, None, -1), slice(0, 10**9)):
            self.assertEqual(document[part], text[part])
        for at in (0, 16384, -1, len(text) - 1):
            self.assertEqual(document[at], text[at])
        for at in (len(text), -len(text) - 1):
            with self.assertRaises(IndexError):
                document[at]


class Ends(unittest.TestCase):
    def test_a_closed_document_is_told(self):
        with jx.Document(b"[1]") as document:
            self.assertEqual(len(document), 3)
        document.close()
        for call in (document.verdict, document.check, document.__len__, document.__bytes__, lambda: document.edit(0, 0, b"1"), lambda: document[:1]):
            with self.assertRaisesRegex(ValueError, "closed"):
                call()

    def test_documents_are_let_go_in_any_order(self):
        many = [jx.Document(b"[%d]" % at) for at in range(100)]
        del many[::2]
        gc.collect()
        self.assertTrue(all(it.verdict().is_accepted for it in many))

    def test_a_document_is_not_copied(self):
        document = jx.Document(b"1")
        for call in (copy.copy, copy.deepcopy, pickle.dumps):
            with self.assertRaises(TypeError):
                call(document)


class Threads(unittest.TestCase):
    def test_threads_take_turns_at_one_document(self):
        document, wrong = jx.Document(b"[" + b"1," * 50_000 + b"1]"), []

        def work(byte):
            try:
                for _ in range(300):
                    document.edit(1, 2, byte)
                    if not document.verdict().is_accepted:
                        wrong.append(byte)
            except Exception as fault:  # noqa: BLE001 - told below
                wrong.append(fault)

        threads = [threading.Thread(target=work, args=(b"%d" % at,)) for at in range(8)]
        for thread in threads:
            thread.start()
        for thread in threads:
            thread.join()
        self.assertEqual((wrong, len(document)), ([], 100_003))
