"""Names of types and variants in the new texts of edits, looked up in the sources."""
import functools
import os
import pathlib
import re

from tracedesk_dev import rattle
from tracedesk_dev.edits import Edit, NotApplied, texts_of

PRELUDE = {"Box", "Default", "Drop", "Err", "None", "Ok", "Option", "Result", "Self", "Some"}
PRELUDE |= {"String", "Vec"}
STRING = re.compile(r'b?"(?:[^"\\]|\\.)*"')
NAME = re.compile(r"(?<![\w:.])((?:[a-z_]\w*::)*)([A-Z]\w*)(?:::([A-Z]\w*))?")
BROUGHT_IN = re.compile(r"\.\{([^}]*)\}")


@functools.cache
def sources_of(folder: str) -> str:
    return "\n".join(it.text for it in rattle.sources(pathlib.Path(folder)))


@functools.cache
def variants(crates: str) -> dict[str, str]:
    """Returns the text of the enums of each name, in all crates of a folder."""
    found: dict[str, str] = {}
    for crate in sorted(pathlib.Path(crates).iterdir()):
        for of in rattle.sources(crate):
            for name, text in of.enums():
                found[name] = found.get(name, "") + text
    return found


def has_word(text: str, word: str) -> bool:
    return re.search(rf"\b{word}\b", text) is not None


def want_names(edit: Edit, folder: str, crates: str) -> None:
    """Refuses an edit that can't be applied, or that names a type or a variant which isn't there:
    a name without a path has to be in the edited file. A check would take minutes to say so."""
    before, _ = texts_of([edit], folder)
    texts = [(it.path, STRING.sub("", it.new)) for it in edit.changes]
    brought = {it for _, text in texts for it in BROUGHT_IN.findall(text)}
    known = PRELUDE | {*re.findall(r"\w+", " ".join(brought))}
    for path, text in texts:
        for module, name, variant in NAME.findall(text):
            first = module.partition("::")[0]
            place = folder if first == "crate" else f"{crates}/{first}"
            if not module:
                is_there = name in known or has_word(before[path], name)
            else:
                is_there = not os.path.isdir(place) or has_word(sources_of(place), name)
            if not is_there:
                raise NotApplied(f"it names {module}{name}, which isn't there")
            if variant and not has_word(variants(crates).get(name, variant), variant):
                raise NotApplied(f"it names {name}::{variant}, which isn't there")
