"""Refused memory, told as Python tells it."""
import subprocess
import sys
import unittest

PROGRAM = """
import resource, jx
text = b"[" + b"0," * 4_000_000 + b'{' + b'"a":0,' * 2_000_000 + b'"b":0}]'
assert jx.verdict(text).is_accepted
used = int(open("/proc/self/statm").read().split()[0]) * resource.getpagesize()
resource.setrlimit(resource.RLIMIT_AS, (used + %d, resource.RLIM_INFINITY))
try:
    %s
except MemoryError:
    resource.setrlimit(resource.RLIMIT_AS, (resource.RLIM_INFINITY, resource.RLIM_INFINITY))
    jx.check(text)
    print("refused, and goes on")
"""


class Refusals(unittest.TestCase):
    def test_memory_that_is_refused_is_a_memory_error(self):
        calls = (
            (8 << 20, "jx.verdict(text, unique_names=True)"),
            (100 << 20, "jx.Index(text)"),
            (8 << 20, "jx.get_all(text, ['/0'], unique_names=True)"),
            (1 << 20, "jx.elements(b'\\x1e' * 1_000_000)"),
            (4 << 20, "jx.Document(text)"),
            (4 << 20, "jx.compact(text)"),
            (64 << 20, "jx.LineReader().feed(b'\\n' * 4_000_000)"),
        )
        for more, call in calls:
            done = subprocess.run([sys.executable, "-X", "faulthandler", "-c", PROGRAM % (more, call)], capture_output=True, text=True)
            self.assertEqual((done.returncode, done.stdout, done.stderr), (0, "refused, and goes on\n", ""), call)
