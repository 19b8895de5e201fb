"""Numbers as text, and numbers of things in words."""

from __future__ import annotations

from typing import Optional

LARGEST = 2**32 - 1


def as_number(token: str) -> Optional[int]:
    """The number from 0 to LARGEST that a token is, or None. `int` would raise where there are thousands of digits."""
    if not (token.isascii() and token.isdigit()):
        return None
    digits = token.lstrip("0") or "0"
    if len(digits) > len(str(LARGEST)) or int(digits) > LARGEST:
        return None
    return int(digits)


def counted(number: int, thing: str) -> str:
    return f"{number} {thing}" if number == 1 else f"{number} {thing}s"
