"""The calls that have to be fast, in C where `native.c` is built, and else by `ctypes`. `IS_NATIVE` says which.

The variable JX_PYTHON=ctypes asks for the second, so that tests can compare both.
"""
from __future__ import annotations

import ctypes
import os
import sys
from typing import TYPE_CHECKING

from ._library import LIBRARY

__all__ = ["IS_NATIVE", "Rows", "at", "compact", "index", "verdict"]

_BOUND = (
    "jx_check_non_null",
    "jx_compact_non_null",
    "jx_at_non_null",
    "jx_index_new_non_null",
    "jx_index_find_non_null",
    "jx_index_row_non_null",
    "jx_index_free_non_null",
)

IS_NATIVE = False
if TYPE_CHECKING:
    from ._native import Rows, at, compact, index, verdict
else:
    try:
        if os.environ.get("JX_PYTHON") == "ctypes" or sys.version_info < (3, 11):
            raise ImportError("by ctypes")
        from ._native import Rows, at, bind, compact, index, verdict
    except ImportError:
        from ._calls import Rows, at, compact, index, verdict
    else:
        bind(*(ctypes.cast(getattr(LIBRARY, name), ctypes.c_void_p).value for name in _BOUND))
        IS_NATIVE = True
