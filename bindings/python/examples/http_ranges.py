"""A few values of a text behind a server, by its saved index and requests for ranges (RFC 9110, section 14): some chunks of 32 KiB.

    python3 http_ranges.py URL INDEX POINTER..

INDEX is a file that `jx save` wrote, or `jx.save`. By the standard library and the package `jx` alone.
"""
import sys
import urllib.request

import jx


class Ranges:
    """A text behind a server, with the `seek` and `read` that `jx.open` calls."""

    def __init__(self, url):
        self.url, self.at, self.requests = url, 0, 0
        with urllib.request.urlopen(urllib.request.Request(url, method="HEAD")) as answer:
            if answer.headers.get("Accept-Ranges") != "bytes":
                raise OSError("%s: the server gives no ranges" % url)
            self.size = int(answer.headers["Content-Length"])

    def seek(self, offset, whence=0):
        self.at = offset + (0, self.at, self.size)[whence]
        return self.at

    def read(self, size):
        asked = urllib.request.Request(self.url, headers={"Range": "bytes=%d-%d" % (self.at, self.at + size - 1)})
        with urllib.request.urlopen(asked) as answer:
            if answer.status != 206:
                raise OSError("%s: status %d, not a range" % (self.url, answer.status))
            found = answer.read(size)
        self.at += len(found)
        self.requests += 1
        return found


def main(url, index, *pointers):
    text = Ranges(url)
    with open(index, "rb") as file, jx.open(text, file.read()) as root:
        for pointer in pointers:
            value = root.find(pointer)
            print(value.load() if isinstance(value, jx.View) else value)
    print("%d requests, of %d bytes" % (text.requests, text.size), file=sys.stderr)


if __name__ == "__main__":
    main(*sys.argv[1:])
