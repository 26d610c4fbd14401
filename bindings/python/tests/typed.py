"""Calls of the package for a checker of types: `mypy --strict` accepts this file, and would refuse it without its comments."""
import mmap
import pathlib
from typing import List, Optional, Tuple, Union, assert_type

import jx

DATA = b'{"a": [1, {"b": null}]}'


def texts(mapped: mmap.mmap, path: pathlib.Path) -> None:
    assert_type(jx.verdict(DATA), jx.Verdict)
    jx.check(DATA, depth=3, ignore_bom=True, unique_names=True)
    jx.check(bytearray(DATA))
    jx.check(memoryview(DATA))
    jx.check(mapped)
    assert_type(jx.compact(DATA, depth=3, ignore_bom=True, unique_names=True), bytes)
    assert_type(jx.compact(mapped), bytes)
    jx.compact("[1]")  # type: ignore[arg-type]
    jx.check("[1]")  # type: ignore[arg-type]
    jx.check(DATA, deep=3)  # type: ignore[call-arg]
    jx.check_file(path, unique_names=True)
    with open(path, "rb") as file:
        jx.check_file(file)
    with open(path) as words:
        jx.check_file(words)  # type: ignore[arg-type]
    reader = jx.Reader(depth=3)
    reader.feed(DATA)
    assert_type(reader.verdict(), jx.Verdict)
    jx.Reader(unique_names=True)  # type: ignore[call-arg]


def values() -> None:
    assert_type(jx.get(DATA, "/a"), memoryview)
    assert_type(jx.get(DATA, "/b", None), Optional[memoryview])
    assert_type(jx.get(DATA, "/b", default=7), Union[memoryview, int])
    assert_type(jx.get_all(DATA, ["/a", "/b"]), List[memoryview])
    assert_type(jx.get_all(DATA, ("/a", "/b"), None), List[Optional[memoryview]])
    jx.get(DATA, b"/a")  # type: ignore[call-overload]


def indexes() -> None:
    index = jx.Index(DATA)
    assert_type(index["/a"], jx.Value)
    assert_type(index.get("/b"), Optional[jx.Value])
    assert_type(index.get("/b", 7), Union[jx.Value, int])
    value = index["/a"]
    assert_type(value[0], jx.Value)
    assert_type(value["b"], jx.Value)
    assert_type(value[1:], List[jx.Value])
    assert_type(value.bytes, memoryview)
    assert_type(bytes(value), bytes)
    assert_type(value.pointer, Optional[str])
    assert_type(value.kind, jx.ValueKind)
    assert_type([child for child in value.values()], List[jx.Value])
    assert_type(value.keys(), List[str])
    assert_type([child.kind for _, child in value.items()], List[jx.ValueKind])
    assert_type(value.get("b"), Optional[jx.Value])
    assert_type(index.row(0), jx.Row)
    index[0]  # type: ignore[index]


def saved(path: pathlib.Path) -> None:
    assert_type(jx.save(path, chunk=4096, names=True), str)
    with open(path, "rb") as file:
        assert_type(jx.save(file, path, depth=3, ignore_bom=True), str)
        jx.open(file, DATA)
    with jx.open(path) as root:
        assert_type(root, jx.View)
        assert_type(root.span, Tuple[int, int])
        assert_type(root.kind, jx.ValueKind)
        assert_type(bytes(root), bytes)
        if isinstance(root, jx.ArrayView):
            assert_type(root[1:], jx.Elements)
            for part in root.split(8):
                assert_type(part, jx.Part)
                assert_type(part.last - part.first, int)
        if isinstance(root, jx.ObjectView):
            assert_type(list(root), List[str])
    try:
        jx.open(path)
    except jx.Changed as changed:
        assert_type(changed.end - changed.start, int)
    jx.save(path, unique_names=True)  # type: ignore[call-arg]


def others() -> None:
    with jx.Document(DATA) as document:
        document.edit(0, 0, bytearray(b" "))
        assert_type(document[0], int)
        assert_type(document[0:2], bytes)
        assert_type(document.verdict(), jx.Verdict)
    assert_type(jx.Run(DATA, 0).join(jx.Run(b"")).verdict(0, 1), jx.Verdict)
    assert_type(jx.elements(DATA), List[jx.Element])
    try:
        jx.check(b"[")
    except jx.Refused as refused:
        assert_type(refused.lineno, Optional[int])
        assert_type(refused.offset, Optional[int])
        assert_type(refused.kind, jx.Kind)
        assert_type(refused.filename, Optional[str])


def lines(path: pathlib.Path) -> None:
    assert_type(jx.lines(DATA, depth=3, ignore_bom=True, skip_blank=True), jx.Lines)
    assert_type(list(jx.lines_file(path)), List[jx.Line])
    with open(path, "rb") as file:
        with jx.lines_file(file) as opened:
            assert_type(next(opened), jx.Line)
        for line in jx.lines_file(file):
            assert_type(line.number, int)
            assert_type(line.offset, Optional[int])
            assert_type(line.kind, jx.Kind)
            assert_type(line.reason, str)
    jx.lines_file([b"[]", bytearray(b"\n")])
    jx.lines_file(["[]"])  # type: ignore[list-item]
    jx.lines("[]")  # type: ignore[arg-type]
    reader = jx.LineReader()
    assert_type(reader.feed(DATA) + reader.end(), List[jx.Line])
    assert_type(reader.accepted + reader.refused + reader.blank, int)


def values_of_containers(path: pathlib.Path) -> None:
    assert_type(list(jx.each(DATA, "/a", depth=3, ignore_bom=True)), List[bytes])
    for value in jx.each_file(path, pointer="/a"):
        assert_type(value, bytes)
    with open(path, "rb") as file:
        values = jx.each_file(file)
        assert_type(next(values), bytes)
        values.close()
    jx.each_file([b"[]", bytearray(b"\n")])
    jx.each_file(["[]"])  # type: ignore[list-item]
    jx.each("[]")  # type: ignore[arg-type]
    jx.each(DATA, b"/a")  # type: ignore[arg-type]
    jx.each(DATA, unique_names=True)  # type: ignore[call-arg]
    reader = jx.ValueReader("/a")
    assert_type(reader.feed(DATA), List[bytes])
    reader.end()
