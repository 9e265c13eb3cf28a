"""The JSON Schema of a document of terms, for editors and for systems that send documents.

`tools/schema` makes it from the table of elements that the gate prints. It isn't proved; it is compared with the
engine on changed documents. A document that it refuses breaks one of the rules K2 to K7, and the other way
round, but for what its `$comment` says. The rules from K8 on are the engine's alone.
"""
from __future__ import annotations

import json
from pathlib import Path
from typing import Any, Dict

#: The file of the schema, JSON Schema 2020-12.
PATH = Path(__file__).resolve().parent / "carrier.schema.json"


def carrier_schema() -> Dict[str, Any]:
    """The schema as a mapping, as `jsonschema` takes it."""
    schema: Dict[str, Any] = json.loads(PATH.read_text(encoding="utf-8"))
    return schema
