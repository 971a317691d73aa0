"""Makes of docs/openapi.json, which is of OpenAPI 3.1, the same for tools that know OpenAPI 3.0 alone.

    python3 packaging/openapi_3_0.py > openapi-3.0.json

The package uss-desk has it beside openapi.json. `.ci/openapi` checks its form.
"""

from __future__ import annotations

import json
import pathlib
from typing import Any

DOCUMENT = pathlib.Path(__file__).resolve().parent.parent / "docs" / "openapi.json"
NULL = {"type": "null"}
LEFT_OUT = (
    " This is docs/openapi.json in the words of OpenAPI 3.0, which has no type of null: the desk takes cells,"
    " rectangle, astm_f3548_21 and priority that are null too, as if they weren't there, and this description has them"
    " left out."
)


def converted_part(value: Any) -> Any:
    """The same in the words of OpenAPI 3.0: a constant is the one value of an enumeration, and null is left out."""
    if isinstance(value, list):
        return [converted_part(part) for part in value if part != NULL]
    if not isinstance(value, dict):
        return value
    made = {}
    for name, part in value.items():
        if name == "examples":  # no schemas
            made[name] = part
        elif name == "const":
            made.update({"type": "boolean" if part is True else "string", "enum": [part]})
        elif name == "type" and isinstance(part, list):
            (made["type"],) = [kind for kind in part if kind != "null"]
        elif name == "properties" and NULL in part.values():  # of one of two choices: that the other is null
            continue
        else:
            made[name] = converted_part(part)
    alone = made.get("oneOf", [])
    return alone[0] if len(alone) == 1 and len(made) == 1 else made


def converted(document: dict[str, Any]) -> dict[str, Any]:
    """The document for tools that know OpenAPI 3.0 alone."""
    made: dict[str, Any] = converted_part(document)
    made["openapi"] = "3.0.3"
    made["info"]["description"] += LEFT_OUT
    return made


def text() -> str:
    """The text of the file."""
    document = converted(json.loads(DOCUMENT.read_text(encoding="utf-8")))
    return json.dumps(document, indent=1, ensure_ascii=False) + "\n"


if __name__ == "__main__":
    print(text(), end="")
