"""Cells of CSV, which people open with spreadsheets."""

from __future__ import annotations

import re
from typing import Final

_FORMULA: Final = (*"=+-@", *"＝＋－＠", "\t", "\r", "\n")  # the second four are of full width
_BEHIND: Final = re.compile(f';(?="*[{re.escape("".join(_FORMULA))}])')  # quotes may be left out


def guarded(cell: object) -> object:
    """A cell of a table. A text that a spreadsheet could take for a formula has an apostrophe before it, so that it is shown as it
    stands and nothing is computed; what is no such text stays as it is. Where numbers have a comma, a semicolon begins a cell too.
    """
    if not isinstance(cell, str):
        return cell
    text = _BEHIND.sub(";'", cell)
    return f"'{text}" if text.startswith(_FORMULA) else text
