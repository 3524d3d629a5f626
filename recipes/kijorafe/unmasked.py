"""The fields whose texts the recipe masked leaves, and why: the file recipes/unmasked."""

import os
from typing import Dict

from kijorafe.known import TYPES

UNMASKED = os.path.join(os.path.dirname(TYPES), "unmasked")
# How the file marks the fields whose texts name code, and the others.
CODE, ALWAYS = "code", "always"


def unmasked(is_code_masked: bool) -> Dict[str, str]:
    """The reason for each field. Each is a name with dots, which as a pattern matches only itself."""
    fields = {}
    with open(UNMASKED, encoding="utf-8") as lines:
        for line in lines:
            if not line.startswith("#"):
                field, when, reason = line.rstrip("\n").split("\t")
                if when == ALWAYS or not is_code_masked:
                    fields[field] = reason
    return fields
