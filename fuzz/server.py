#!/usr/bin/env python3
"""Plays random sessions to the language server, and holds each answer to the plain readers: server.py SERVER READERS SEED SESSIONS

Half of them are as an editor sends them, with its odd positions. In the others bytes are changed, doubled or dropped: then the server may
end with status 0 or 1, in 20 seconds and 512 MiB of addresses, and what it writes are frames of JSON texts. First comes a session that an
earlier server marked on the wrong line. Prints what differs and the seed of its session, and then how many sessions and messages there
were.
"""
import json
import random
import resource
import subprocess
import sys

import plain
import sessions

SECONDS, ADDRESSES = 20, 512 << 20
ODD = [
    b"Content-Length: 99999999999999999999\r\n\r\n", b"Content-Length: -1\r\n\r\n", b"Content-Length: 0\r\n\r\n", b"\r\n", b"Content-Type: x\r\n", b"\xff",
    b"[" * 600, b'"id":1,', b"\0", b"\\ud800", b"-1", b"1e99", b"2147483648", b"18446744073709551616", b"null", b"{}",
]


def limit():
    resource.setrlimit(resource.RLIMIT_AS, (ADDRESSES, ADDRESSES))
    resource.setrlimit(resource.RLIMIT_CORE, (0, 0))


class Player:
    def __init__(self, server, readers):
        self.server, self.readers = server, readers

    def served(self, stream):
        run = subprocess.run([self.server], input=stream, capture_output=True, timeout=SECONDS, preexec_fn=limit)
        return run.stdout, run.stderr, run.returncode

    def bodies(self, stream):
        """The messages of a stream, each a JSON text with unique names in a frame of its length."""
        found = []
        while stream:
            head, mark, stream = stream.partition(b"\r\n\r\n")
            assert mark and head.startswith(b"Content-Length: "), ("no frame", head[:80])
            size = int(head[16:])
            assert size <= len(stream), "half a frame"
            verdict, _ = self.readers.read(stream[:size], plain.Settings(512, plain.UNIQUE_NAMES))
            assert verdict.kind == 0, ("no JSON text", stream[:size][:200])
            found.append(json.loads(stream[:size]))
            stream = stream[size:]
        return found

    def hold(self, session):
        """Plays a session to its end, and holds each answer to what is due; tells how many there were."""
        output, errors, status = self.served(b"".join(session.sent))
        assert (errors, status) == (b"", 0), (errors, status)
        got = self.bodies(output)
        for number, (holds, answer) in enumerate(zip(session.wanted, got)):
            assert holds(answer), ("answer %d" % number, answer)
        assert len(got) == len(session.wanted), ("answers", len(got), len(session.wanted))
        return len(got)

    def one(self, seed):
        dice = random.Random(seed)
        session = sessions.Session(self.readers, dice, options=dice.choice(sessions.OPTIONS))
        stream = session.play()
        if dice.random() < 0.5:
            return self.hold(session)
        output, errors, status = self.served(damaged(dice, stream))
        assert status in (0, 1), ("status", status, errors[-300:])
        return len(self.bodies(output))

    def cut_character(self):
        """A range of bytes that cuts a character. What is left of it is a fault on its own line."""
        session = sessions.Session(self.readers, random.Random(0), encoding="utf-8")
        uri = sessions.URIS[0]
        session.open_as("json", uri, "\n€")
        cut = {"start": {"line": 1, "character": 0}, "end": {"line": 1, "character": 1}}
        session.send_changes(uri, [{"range": cut, "text": ""}], b"\n" + "€".encode()[1:])
        is_told = session.wanted.pop()
        session.wanted.append(lambda got: is_told(got) and got["params"]["diagnostics"][0]["range"] == cut)
        session.end()
        return self.hold(session)


def damaged(dice, stream):
    """The stream with some of its bytes otherwise."""
    stream = bytearray(stream)
    for _ in range(dice.choice([1, 1, 2, 5, 20])):
        at, how = dice.randrange(len(stream) + 1), dice.randrange(5)
        if how == 0 and at < len(stream):
            stream[at] ^= 1 << dice.randrange(8)
        elif how == 1:
            del stream[at : at + dice.choice([1, 1, 2, 40])]
        elif how == 2:
            stream[at:at] = stream[at : at + dice.choice([1, 10, 300])]
        elif how == 3:
            stream[at:at] = dice.choice(ODD)
        elif how == 4:
            # A body of the right length that is changed.
            head = stream.find(b"\r\n\r\n", at)
            if 0 <= head < len(stream) - 8:
                stream[head + 4 + dice.randrange(4, len(stream) - head - 4)] = dice.choice(b'"{}[],:0 \\')
    return bytes(stream)


def main():
    player, seed, count = Player(sys.argv[1], plain.Readers(sys.argv[2])), int(sys.argv[3]), int(sys.argv[4])
    messages = wrong = 0
    plays = [("a cut character", player.cut_character)] + [("seed %d" % it, lambda it=it: player.one(it)) for it in range(seed, seed + count)]
    for name, play in plays:
        try:
            messages += play()
        except (AssertionError, subprocess.TimeoutExpired) as fault:
            wrong += 1
            print("%s: %r" % (name, fault), flush=True)
    print("server.py: seed %d, %d sessions, %d messages answered, %d wrong" % (seed, len(plays), messages, wrong))
    return wrong > 0


if __name__ == "__main__":
    sys.exit(main())
