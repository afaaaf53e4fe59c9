"""What a model may have at most, and which names a feature may have."""
from __future__ import annotations

import re

# What a model may have at most (docs/CODES.md).
FEATURES = 32
CONSTRAINTS = 256
TESTS = 64
OPERATORS = 64
BYTES = 65536
END = 1 << 20

# Names that no feature may have.
RESERVED = set("""auto break case char const continue default do double else enum extern float for goto if inline int long register
    restrict return short signed sizeof static struct switch typedef union unsigned void volatile while _Alignas _Alignof _Atomic _Bool
    _Complex _Generic _Imaginary _Noreturn _Static_assert _Thread_local main assert input defined NDEBUG""".split())

NAME = re.compile(r"(?<!\w)[A-Za-z_]\w*")


class NoModel(Exception):
    """Why no model can be made."""


def is_allowed(name: str) -> bool:
    return NAME.fullmatch(name) is not None and not name.startswith("__") and name not in RESERVED
