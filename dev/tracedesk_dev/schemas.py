"""The schemas that dev/api writes, by Debian's python3-jsonschema."""
import re
from typing import Any

import jsonschema  # type: ignore[import]  # Debian has no stubs of it

VALIDATOR = jsonschema.Draft202012Validator


def of_python(schema: Any) -> Any:
    r"""The schema with patterns of Python's: to Python `$` lets a line feed follow, so it becomes
    `\Z`.
    """
    if isinstance(schema, dict):
        return {
            name: re.sub(r"(?<!\\)\$", r"\\Z", one) if name == "pattern" else of_python(one)
            for name, one in schema.items()
        }
    return [of_python(one) for one in schema] if isinstance(schema, list) else schema


class Schema:
    """A schema that refers to definitions in a document: itself, where none is named."""

    def __init__(self, schema: Any, document: Any = None) -> None:
        VALIDATOR.check_schema(schema)
        self.look = VALIDATOR(of_python({**(document or {}), **schema}))

    def fault(self, value: Any) -> str | None:
        """What is wrong with a value, and where, or none."""
        for error in self.look.iter_errors(value):
            return "".join(f"/{it}" for it in error.absolute_path) + f": {error.message[:300]}"
        return None


class Messages:
    """The schema of a message, by its name: that of all tells no place, and asks seventeen."""

    def __init__(self, document: Any) -> None:
        self.whole = Schema(document)
        self.of_name = {
            its["properties"]["MessageName"]["const"]: Schema(
                {**document, "$ref": f"#/$defs/{word}"}
            )
            for word, its in document["$defs"].items()
            if "MessageName" in its.get("properties", {})
        }

    def fault(self, value: Any) -> str | None:
        name = value.get("MessageName") if isinstance(value, dict) else None
        return self.of_name.get(str(name), self.whole).fault(value)
