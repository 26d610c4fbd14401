"""Whether bytes are a JSON text (RFC 8259), at which byte they stop being one, and where JSON Pointers (RFC 6901) lead.

No call makes a tree of values, and none but `compact`, `each` and views of saved texts copies the data. Other threads run during a call.
"""
from ._document import Document
from ._elements import Element, elements
from ._faults import (
    AfterLast,
    BadIndex,
    BadPointer,
    Changed,
    Kind,
    NameRepeated,
    NoSuchMember,
    NotAContainer,
    NotAnIndex,
    NotFound,
    PastEnd,
    Refused,
    Stale,
    Verdict,
)
from ._find import get, get_all, loads
from ._finder import Finder, Found, find_file
from ._index import Index, Row, Value, ValueKind
from ._library import DEPTH_DEFAULT, DEPTH_MAX, version
from ._lines import Line, LineReader, Lines, lines, lines_file
from ._runs import NoRun, NotARun, NotNeighbours, OtherDepth, Run
from ._saved import save
from ._texts import Reader, check, check_file, compact, verdict
from ._values import ValueReader, each, each_file
from ._views import ArrayView, Elements, ObjectView, Part, View

# Not in `__all__`: by `from jx import *` it would take the place of the builtin.
from ._views import open as open

__version__ = version()
__all__ = [
    "AfterLast",
    "ArrayView",
    "BadIndex",
    "BadPointer",
    "Changed",
    "DEPTH_DEFAULT",
    "DEPTH_MAX",
    "Document",
    "Element",
    "Elements",
    "Finder",
    "Found",
    "Index",
    "Kind",
    "Line",
    "LineReader",
    "Lines",
    "NameRepeated",
    "NoRun",
    "NoSuchMember",
    "NotARun",
    "NotAContainer",
    "NotAnIndex",
    "NotFound",
    "NotNeighbours",
    "ObjectView",
    "OtherDepth",
    "Part",
    "PastEnd",
    "Reader",
    "Refused",
    "Row",
    "Run",
    "Stale",
    "Value",
    "ValueKind",
    "ValueReader",
    "Verdict",
    "View",
    "check",
    "check_file",
    "compact",
    "each",
    "each_file",
    "elements",
    "find_file",
    "get",
    "get_all",
    "lines",
    "lines_file",
    "loads",
    "save",
    "verdict",
]
