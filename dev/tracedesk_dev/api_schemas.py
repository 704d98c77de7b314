"""The schemas and openapi.json of docs/api, as made from the table docs/api/messages.json."""
import json
import re
from typing import Any, Iterable, Iterator

Table = dict[str, Any]
Member = dict[str, Any]
Schema = dict[str, Any]
DIALECT = "https://json-schema.org/draft/2020-12/schema"
WIDTH = 150


class Wrong(Exception):
    """What is wrong with the table or with a page."""


def spelled(value: Any, depth: int = 0) -> str:
    """JSON whose short values stand on one line."""
    line = json.dumps(value, ensure_ascii=False)
    if len(line) + depth <= WIDTH or not isinstance(value, (dict, list)):
        return line
    pad, end = " " * (depth + 2), "\n" + " " * depth
    if isinstance(value, dict):
        its = [f"{json.dumps(name)}: {spelled(it, depth + 2)}" for name, it in value.items()]
    else:
        its = [spelled(it, depth + 2) for it in value]
    inner = ",\n".join(pad + it for it in its)
    return f"{{\n{inner}{end}}}" if isinstance(value, dict) else f"[\n{inner}{end}]"


def plain(text: str) -> str:
    """A text of the table without marks and links."""
    return re.sub(r"\[([^\]]*)\]\([^)]*\)", r"\1", text).replace("`", "")


def sentence(text: str) -> str:
    text = plain(text).strip()
    return text[:1].upper() + text[1:] + ("" if text.endswith(".") else ".")


# --- Schemas. `at` is where the definitions stand: "#/$defs/", or of an OpenAPI document
# "#/components/schemas/".


def ref(at: str, name: str) -> Schema:
    return {"$ref": at + name}


def member_schema(member: Member, at: str) -> Schema:
    of = ref(at, member["row"] if "row" in member else member["value"])
    if "for_each" in member:
        of = {"anyOf": [of, {"type": "null"}]}
    if "most" not in member:
        return of
    return {"type": "array", "minItems": 1, "maxItems": member["most"], "items": of}


def object_schema(members: list[Member], at: str, beside: Iterable[Member] = ()) -> Schema:
    """An object with these members, and with those beside them where they are known; others are
    skipped, and one that is read in a case alone is wanted in it alone.
    """
    always = [it for it in members if "where" not in it]
    made = {
        "type": "object",
        "required": [it["name"] for it in always],
        "properties": {it["name"]: member_schema(it, at) for it in [*always, *beside]},
    }
    for it in members:
        if "where" in it:
            ((name, value),) = it["where"].items()
            made["if"] = {"required": [name], "properties": {name: {"const": value}}}
            made["then"] = {
                "required": [it["name"]],
                "properties": {it["name"]: member_schema(it, at)},
            }
    return made


def message_definitions(table: Table, at: str, examples: dict[str, list[Any]]) -> Schema:
    made: Schema = {}
    for name, value in table["values"].items():
        made[name] = {"description": sentence(value["form"])} if "form" in value else {}
        made[name] |= value["schema"]
    for message in table["messages"]:
        for it in message["members"]:
            if "row" in it:
                made[it["row"]] = object_schema(it["members"], at)
    for message in table["messages"]:
        word, envelope = message["word"], {}
        for it in table["envelope"]:
            of = ref(at, it["value"]) if "value" in it else {}
            envelope[it["name"]] = {"description": sentence(it["says"]), **of}
        envelope["MessageName"] = {"const": table["prefix"] + word}
        envelope["MessageBody"] = object_schema(message["members"], at, message.get("beside", ()))
        made[word] = {
            "title": word,
            "description": f"{word} {plain(message['means'])}",
            "type": "object",
            "required": list(envelope),
            "properties": envelope,
            "examples": [examples[word]],
        }
    made["message"] = {
        "description": "A message that a desk acts on.",
        "anyOf": [ref(at, it["word"]) for it in table["messages"]],
    }
    return made


def said(table: Table, at: str, answer: str, **members: Any) -> Schema:
    """The schema of an answer with just these members: of each a schema, or the name of a value."""
    inner = {"Answer": {"const": answer}}
    for name, it in members.items():
        it = table["answer_values"][name] if it is None else it
        if isinstance(it, dict) and isinstance(it.get("items"), str):
            it = dict(it, items=ref(at, it["items"]))
        inner[name] = ref(at, it) if isinstance(it, str) else it
    inner = dict(sorted(inner.items()))
    return {
        "type": "object",
        "required": list(inner),
        "properties": inner,
        "additionalProperties": False,
    }


def body_names(members: list[Member]) -> Iterator[str]:
    for it in members:
        yield it["name"]
        yield from body_names(it.get("members", []))


def is_bounded(table: Table, member: Member) -> bool:
    return "most" in member or "maximum" in table["values"][member["value"]]["schema"]


def bounded_names(table: Table, members: list[Member]) -> Iterator[str]:
    for it in members:
        if is_bounded(table, it):
            yield it["name"]
        yield from bounded_names(table, it.get("members", []))


def once(names: Iterable[Any]) -> list[Any]:
    return list(dict.fromkeys(names))


def faulty_forms(table: Table, at: str) -> Iterator[tuple[str, str, Schema]]:
    """Each fault of a message with the members that it may name, of a file, and of a request."""
    bodies = [it for message in table["messages"] for it in message["members"]]
    named = {
        "EnvelopeMember": [it["name"] for it in table["envelope"]],
        "BodyMember": once(body_names(bodies)),
        "OverLimit": once(bounded_names(table, bodies)),
    }
    for it in table["faults"]:
        members = {"Member": {"enum": named[it["fault"]]}} if it["member"] else {}
        yield "message", it["fault"], members
    parameters = once(name for route in table["routes"] for name in route["parameters"])
    for kind in ("file", "request"):
        for it in table[f"{kind}_faults"]:
            members = {"Member": {"enum": parameters}} if "Member" in it["members"] else {}
            yield kind, it["fault"], dict.fromkeys(it["members"]) | members


def answer_definitions(table: Table, at: str) -> Schema:
    made = {"name": table["values"]["name"]["schema"]}
    more = once(it["accepted"] for it in table["messages"] if "accepted" in it)
    forms: list[Schema] = [{}, *({name: None} for name in more)]
    made["Accepted"] = {
        "anyOf": [said(table, at, "Accepted", Number=None, UniqueID=None, **form) for form in forms]
    }
    refused: dict[tuple[str, ...], list[str]] = {}
    for it in table["refusals"]:
        refused.setdefault(tuple(it.get("members", ["At"])), []).append(it["refusal"])
    made["Refused"] = {
        "anyOf": [
            said(table, at, "Refused", Refusal={"enum": names}, **dict.fromkeys(["UniqueID", *its]))
            for its, names in refused.items()
        ]
    }
    made["Ignored"] = said(table, at, "Ignored", MessageName=None)
    grouped: dict[tuple[str, str], tuple[Schema, list[str]]] = {}
    for kind, fault, members in faulty_forms(table, at):
        grouped.setdefault((kind, spelled(members)), (members, []))[1].append(fault)
    for kind in ("message", "file", "request"):
        made[f"Faulty_{kind}"] = {
            "anyOf": [
                said(table, at, "Faulty", Fault={"enum": names}, **members)
                for (of, _), (members, names) in grouped.items()
                if of == kind
            ]
        }
    made["NotFound"] = said(table, at, "NotFound", Kind={"enum": table["kinds"]})
    made["Unavailable"] = said(table, at, "Unavailable")
    texts = {it["answer"]: sentence(it["says"]) for it in table["answers"]}
    for name in made:
        if told := texts.get(name.partition("_")[0]):
            made[name] = {"description": told, **made[name]}
        if name in table["answer_examples"]:
            made[name]["examples"] = table["answer_examples"][name]
    made["answer"] = {
        "description": "What a desk answers to a message, a file or a request.",
        "anyOf": [ref(at, it) for it in made if it != "name"],
    }
    return made


def schema_file(title: str, definitions: Schema, root: str) -> str:
    head = {"$schema": DIALECT, "title": title, "$ref": f"#/$defs/{root}"}
    return spelled({**head, "$defs": definitions}) + "\n"


# --- OpenAPI


def bodies_of(table: Table, route: Member, at: str) -> Schema:
    if route["path"] == "/messages":
        return {"application/json": {"schema": ref(at, "message")}}
    longest = table["limits"]["LONGEST_INPUT"]
    return {"text/csv": {"schema": {"type": "string", "maxLength": longest}}}


def responses_of(table: Table, route: Member, at: str) -> Schema:
    """The answers to a route: of each status what it may be."""
    found: dict[int, list[str]] = {}

    def add(status: int, *names: str) -> None:
        found.setdefault(status, [])
        found[status] += [it for it in names if it not in found[status]]

    if route["method"] == "POST":
        add(200, "Accepted")
        add(409, "Refused")
        kind = "message" if route["path"] == "/messages" else "file"
        for it in table["faults" if kind == "message" else "file_faults"]:
            if "status" in it:
                add(it["status"], f"Faulty_{kind}")
        if kind == "message":
            add(202, "Ignored")
    else:
        add(404, "NotFound")
    for it in table["request_faults"]:
        if it["fault"] != "BadMethod" and (it["fault"] != "BadQuery" or route["parameters"]):
            add(it["status"], "Faulty_request")
    add(503, "Unavailable")
    made = {}
    if route["method"] == "GET":
        made["200"] = {
            "description": f"A report, with a header line. {header_text(table, route['path'])}",
            "content": {"text/csv": {"schema": {"type": "string"}}},
        }
    for status, names in sorted(found.items()):
        shape = ref(at, names[0]) if len(names) == 1 else {"anyOf": [ref(at, it) for it in names]}
        made[str(status)] = {
            "description": " or ".join(once(it.partition("_")[0] for it in names)) + ".",
            "content": {"application/json": {"schema": shape}},
        }
    return dict(sorted(made.items()))


def header_text(table: Table, path: str) -> str:
    shapes = [it for it in table["reports"] if it["path"] == path]
    heads = (f"With detail {it['detail']}" if "detail" in it else "Columns" for it in shapes)
    return " ".join(f"{head}: {','.join(it['columns'])}." for head, it in zip(heads, shapes))


def parameter_of(table: Table, name: str, at: str) -> Schema:
    said_of = {it["parameter"]: it for it in table["parameters"]}
    it = said_of.get(name, said_of["all others"])
    return {
        "name": name,
        "in": "query",
        "required": True,
        "description": sentence(it["says"]),
        "schema": it["schema"] if "schema" in it else ref(at, it["value"]),
    }


def openapi(table: Table, examples: dict[str, list[Any]]) -> Schema:
    at = "#/components/schemas/"
    paths: Schema = {}
    for route in table["routes"]:
        made = {
            "operationId": route["method"].lower()
            + "".join(it.title() for it in route["path"].strip("/").split("/")),
            "summary": sentence(route["says"]),
        }
        if route["parameters"]:
            made["parameters"] = [parameter_of(table, name, at) for name in route["parameters"]]
        if route["method"] == "POST":
            made["requestBody"] = {
                "description": sentence(route["body"]),
                "required": True,
                "content": bodies_of(table, route, at),
            }
        made["responses"] = responses_of(table, route, at)
        paths.setdefault(route["path"], {})[route["method"].lower()] = made
    info = {
        "title": "trace desk",
        "version": "1",
        "license": {"name": "MIT", "identifier": "MIT"},
        "description": (
            "Feeder verification and lot traces beside a surface-mount line. The desk's own port"
            " has no log-in; nginx in front of it asks for a password or a certificate."
        ),
    }
    schemes = {
        "password": {"type": "http", "scheme": "basic"},
        "certificate": {"type": "mutualTLS"},
    }
    definitions = {**message_definitions(table, at, examples), **answer_definitions(table, at)}
    return {
        "openapi": "3.1.0",
        "info": info,
        "servers": [
            {"url": "https://desk.plant", "description": "nginx"},
            {"url": "http://127.0.0.1:8080", "description": "the desk, on its own machine"},
        ],
        "security": [{"password": []}, {"certificate": []}, {}],
        "paths": paths,
        "components": {"securitySchemes": schemes, "schemas": definitions},
    }
