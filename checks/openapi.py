"""docs/openapi.json held against what else says how the office is asked over HTTP: the tables of docs/FORMATS.md, the code's own tables of routes, refusals and statuses,
and its own examples; and the examples of docs/FORMATS.md held against it and against the plain office. `fault_of` also judges replies that came over a socket.

Where the machine has `openapi_spec_validator` the document as a whole is asked of it too."""
import functools
import json
import re
from typing import Any, Optional

from plain_http import PHRASES, Served, message, reply_bytes

PATH, FORMATS = "docs/openapi.json", "docs/FORMATS.md"
SEASON = "examples/five-candidates/bundle.txt"
EXAMPLES = "\n### Each route by an example\n"
# what a schema may say here, besides words for people
SAYS = {"$ref", "type", "const", "enum", "minimum", "maximum", "pattern", "properties", "required", "additionalProperties", "oneOf", "anyOf", "description", "examples", "items", "maxItems", "uniqueItems"}
# a schema, a reply or another part of the document, and a value of JSON
Part = dict[str, Any]
KINDS: dict[str, type] = {"object": dict, "array": list, "string": str, "integer": int, "null": type(None)}

# a refusal: its number, its name, its status and its key
Refusal = tuple[int, str, Optional[int], str]
# an example of a route: method, path, token and body of the request, status and body of the reply
Example = tuple[str, str, Optional[str], bytes, int, bytes]


def text_of(path: str) -> str:
    with open(path, encoding="utf-8") as it:
        return it.read()


@functools.lru_cache(maxsize=None)
def document() -> Part:
    found: Part = json.loads(text_of(PATH))
    return found


# ---- schemas


def target(reference: str) -> Part:
    found = document()
    for name in reference.removeprefix("#/").split("/"):
        found = found[name]
    return found


def resolved(part: Part) -> Part:
    return target(part["$ref"]) if "$ref" in part else part


def why_not(schema: Part, value: Any) -> Optional[str]:
    """Why a value is not as a schema says, or None."""
    if "$ref" in schema:
        return why_not(target(schema["$ref"]), value)
    for key, wanted, found in (("oneOf", 1, 1), ("anyOf", 1, 99)):
        fitting = sum(why_not(it, value) is None for it in schema.get(key, []))
        if key in schema and not wanted <= fitting <= found:
            return f"{value!r:.80} is as {fitting} of the schemas of {key} say"
    if "const" in schema and (value != schema["const"] or type(value) is not type(schema["const"])):
        return f"{value!r:.80} is not {schema['const']!r}"
    if "enum" in schema and value not in schema["enum"]:
        return f"{value!r:.80} is none of {schema['enum']}"
    if "type" in schema and type(value) is not KINDS[schema["type"]]:
        return f"{value!r:.80} is no {schema['type']}"
    if isinstance(value, int) and not schema.get("minimum", value) <= value <= schema.get("maximum", value):
        return f"{value} is out of its range"
    if isinstance(value, str) and not re.search(schema.get("pattern", ""), value):
        return f"{value!r:.80} is not spelled so"
    if isinstance(value, list):
        return why_no_items(schema, value)
    return why_no_members(schema, value) if isinstance(value, dict) else None


def why_no_items(schema: Part, value: list[Any]) -> Optional[str]:
    if len(value) > schema.get("maxItems", len(value)):
        return f"{value!r:.80} has too many items"
    if schema.get("uniqueItems") and len(value) > len(set(value)):
        return f"{value!r:.80} has an item twice"
    return next((why for it in value for why in [why_not(schema["items"], it)] if why), None)


def why_no_members(schema: Part, value: Part) -> Optional[str]:
    known = schema.get("properties", {})
    lacking = [it for it in schema.get("required", []) if it not in value]
    more = [it for it in value if it not in known] if schema.get("additionalProperties") is False else []
    if lacking or more:
        return f"{value!r:.80} lacks {lacking}, and has {more} besides"
    return next((why for name, part in known.items() if name in value for why in [why_not(part, value[name])] if why), None)


def unknown_words(part: object) -> set[str]:
    """The words of a schema, and of the schemas in it, that are not read here."""
    if not isinstance(part, dict):
        return set()
    inner = [*part.get("properties", {}).values(), *part.get("oneOf", []), *part.get("anyOf", []), part.get("items")]
    return set(part) - SAYS | {word for it in inner for word in unknown_words(it)}


# ---- operations


def operations() -> dict[tuple[str, str], Part]:
    """Each operation by its method and path."""
    return {(method.upper(), path): it for path, item in document()["paths"].items() for method, it in item.items() if not method.startswith("x-")}


@functools.lru_cache(maxsize=None)
def paths() -> list[tuple[re.Pattern[str], str]]:
    """What paths look like that are those of an operation."""
    return [(re.compile(re.sub(r"\\{\w+\\}", "[^/?]+", re.escape(path)) + r"(\?.*)?"), path) for path in document()["paths"]]


def fault_of(method: str, path: str, status: int, body: bytes) -> Optional[str]:
    """Why the document does not have this reply to a request whose path names a route, or None."""
    route = next((it for like, it in paths() if like.fullmatch(path)), None)
    operation = operations().get((method, route or ""))
    if not operation:
        return f"{method} {path}: {PATH} has no such operation"
    told = operation["responses"].get(str(status))
    if told is None:
        return f"{method} {path}: {PATH} has no status {status} for it"
    content = resolved(told).get("content")
    if not content or not body:
        return None if not body else f"{method} {path}: {PATH} has no body with status {status}"
    why = why_not(content["application/json"]["schema"], json.loads(body))
    return f"{method} {path}: the reply with status {status} is not as in {PATH}: {why}" if why else None


def schema_of_body(method: str, path: Optional[str]) -> Optional[Part]:
    operation = operations().get((method, path or ""), {})
    found: Optional[Part] = operation.get("requestBody", {}).get("content", {}).get("application/json", {}).get("schema")
    return found


# ---- the document by itself


def own_faults() -> list[str]:
    faults: list[str] = []
    components = document()["components"]
    for name, schema in components["schemas"].items():
        faults += [f"{PATH}: the schema {name} says {it}, which is not read" for it in sorted(unknown_words(schema))]
        faults += [f"{PATH}: an example of {name}: {why}" for it in schema.get("examples", []) for why in [why_not(schema, it)] if why]
    parts = [(where, it) for (method, path), op in operations().items() for where, it in parts_of(f"{method} {path}", op)]
    parts += [(name, it) for name, told in components["responses"].items() for _, it in parts_of(name, {"responses": {"": told}})]
    for where, content in parts:
        values = [it["value"] for it in content.get("examples", {}).values()]
        faults += [f"{PATH}: {where}: {why}" for it in values for why in [why_not(content["schema"], it)] if why]
        faults += [f"{PATH}: {where}: the members of {it} are not in order" for it in values if where[-1] != "?" and list(it) != sorted(it)]
    return faults


def parts_of(where: str, operation: Part) -> list[tuple[str, Part]]:
    """The bodies of an operation: that of the request is marked by a question mark."""
    found = [(f"{where}?", operation["requestBody"])] if "requestBody" in operation else []
    found += [(f"{where} {status}", resolved(told)) for status, told in operation["responses"].items()]
    return [(where, it["content"]["application/json"]) for where, it in found if "content" in it]


def as_a_whole() -> list[str]:
    """What the validator says of it, where there is one."""
    try:
        import openapi_spec_validator
    except ImportError:
        return []
    try:
        openapi_spec_validator.validate(document())
    except Exception as why:  # each kind of fault that it knows
        return [f"{PATH}: {str(why).splitlines()[0]:.160}"]
    return []


# ---- the tables of FORMATS and of the code


def section(title: str) -> str:
    return text_of(FORMATS).partition(title)[2].partition("\n## ")[0]


def differ(what: str, *told: tuple[str, set[Any]]) -> list[str]:
    """Two sides that say something, each with its name, agree."""
    (one, these), (other, those) = told
    return [f"{what}: {one} and {other} differ in {', '.join(sorted(map(str, these ^ those)))}"] if these != those else []


def in_braces(found: re.Match[str]) -> str:
    return f"{{{found[0].lower()}}}"


def routes() -> list[str]:
    own = set(operations())
    named: list[tuple[str, str]] = re.findall(r"`(GET|POST) (/v1/[\w/]+)`", section("\n## Requests over HTTP\n").partition("\n### ")[0])
    told = {(method, re.sub(r"[A-Z]+", in_braces, path)) for method, path in named}
    in_code = set(re.findall(r'Road::\w+ => "([^"]+)"', text_of("crates/http_asks/src/roads.rt")))
    return differ("routes", (PATH, own), (FORMATS, told)) + differ("routes", (PATH, {it for _, it in own}), ("the code", in_code))


def refusals() -> set[Refusal]:
    """The refusals that the document has: number, name, status and key."""
    found: set[Refusal] = set()
    for operation in operations().values():
        for status, told in operation["responses"].items():
            schema = resolved(told).get("content", {}).get("application/json", {}).get("schema", {})
            for one in map(resolved, schema.get("oneOf", [schema])):
                parts = one.get("properties", {})
                if "refused" in parts:
                    keys = [it for it in parts if it not in ("name", "refused", "reply")]
                    found.add((parts["refused"]["const"], parts["name"]["const"], int(status), keys[0] if keys else ""))
    return found


def refusals_told() -> set[Refusal]:
    numbers = [(int(number), name) for number, name in re.findall(r"`refused (\d+) (\w+)", text_of(FORMATS).partition("\n## The season bundle\n")[0])]
    statuses: dict[int, int] = {}
    keys: dict[int, str] = {}
    for status, numbered in re.findall(r"^\| (4\d\d) \| [^|]*\|[^|\n]*refusals? ([\d, to]+?) *\|$", section("\n## Requests over HTTP\n"), re.M):
        for low, high in re.findall(r"(\d+)(?: to (\d+))?", numbered):
            statuses.update(dict.fromkeys(range(int(low), int(high or low) + 1), int(status)))
    for key, numbered in re.findall(r"`(\w+)` \(([\d, ]+)\)", section("\n### Bodies of replies\n").partition("\n### ")[0]):
        keys.update(dict.fromkeys(map(int, numbered.split(", ")), key))
    return {(number, name, statuses.get(number), keys.get(number, "")) for number, name in numbers}


def refusals_of_code() -> set[Refusal]:
    numbers = {name: int(it) for name, it in re.findall(r"Refusal::(\w+)(?: \{[^}]*\})? => (\d+),", text_of("crates/office_moves/src/refusal.rt"))}
    statuses = {name: int(it) for name, it in re.findall(r"^refusal_status \(?(\w+)[^=]*= (\d+)$", text_of("crates/reply_bodies/specs/Status.antt"), re.M)}
    keys = dict(re.findall(r'Refusal::(\w+) \{[^}]*\} => \{?\s*\w+\(alloc, refusal, "(\w+)"', text_of("crates/reply_bodies/src/refusals.rt")))
    return {(number, name, statuses.get(name), keys.get(name, "")) for name, number in numbers.items()}


def statuses() -> list[str]:
    # a web server in front of the office has statuses of its own
    own = {int(status) for it in operations().values() for status, told in it["responses"].items() if "/Front" not in told.get("$ref", "")}
    own |= {int(status) for status, part in ((405, "OtherMethod"), (404, "NoRoute")) if part in document()["components"]["responses"]}
    told = {(int(status), phrase) for status, phrase in re.findall(r"^\| (\d{3}) \| ([A-Z][\w -]*?) \|", section("\n## Requests over HTTP\n"), re.M)}
    in_code = {(int(status), phrase) for status, phrase in re.findall(r'\((\d+), codes "([^"]+)"\)', text_of("crates/http_wire/specs/Statuses.antt"))}
    plain = set(PHRASES.items())
    return differ("statuses", (PATH, own), (FORMATS, {it for it, _ in told})) + differ("phrases", (FORMATS, told), ("the code", in_code)) + differ("phrases", (FORMATS, told), ("plain_http", plain))


# ---- the examples of FORMATS


def examples() -> list[Example]:
    """The examples of routes: method, path, token and body of the request, status and body of the reply."""
    found: list[Example] = []
    for block in re.findall(r"(?:^ {4}.*\n)+", section(EXAMPLES), re.M):
        lines = [it.strip() for it in block.splitlines()]
        if not re.fullmatch(r"(GET|POST) /v1\S*(  X-Office-Token: \w+)?", lines[0]):
            continue
        method, path, *rest = lines[0].split()
        body = lines[1].encode() if lines[1].startswith("{") else b""
        status, _, told = lines[-1].partition(" ")
        found.append((method, path, rest[-1] if rest else None, body, int(status), told.encode()))
    return found


def examples_are_so() -> list[str]:
    """Each example is what the plain office replies, one after another, and as the document says; and each operation has one."""
    office = Served(text_of(SEASON))
    faults: list[str] = []
    seen: set[tuple[str, Optional[str]]] = set()
    for method, path, token, body, status, told in examples():
        like = next((it for shape, it in paths() if shape.fullmatch(path)), None)
        seen.add((method, like))
        if office.reply(method, path, token, body) != (status, told):
            faults.append(f"{FORMATS}: {method} {path}: the plain office replies {office.reply(method, path, token, body)}")
        schema = schema_of_body(method, like)
        why = why_not(schema, json.loads(body)) if schema and body else None
        faults += [f"{FORMATS}: the body of {method} {path}: {why}"] if why else []
        faults += [it for it in [fault_of(method, path, status, told)] if it]
    answered = [it for it in examples() if it[:2] == ("POST", "/v1/answer")]
    faults += [] if answered and as_bytes(*answered[0]) in section(EXAMPLES) else [f"{FORMATS}: the bytes of an answer are not those of its example"]
    return faults + [f"{FORMATS}: there is no example of {' '.join(it)}" for it in operations() if it not in seen]


def as_bytes(method: str, path: str, token: Optional[str], body: bytes, status: int, told: bytes) -> str:
    """An example as its bytes are, as a document shows them."""
    shown = f"{message(method, path, token, body).decode()}\n\n{reply_bytes(status, told).decode()}".replace("\r", "")
    return "".join(f"    {line}\n" if line else "\n" for line in shown.split("\n"))


def versions() -> list[str]:
    """The document and the newest section of CHANGELOG.md have the version of the repository."""
    version = text_of("VERSION").strip()
    newest = re.search(r"^## (\S+), ", text_of("CHANGELOG.md"), re.M)
    document_faults = differ("version", ("VERSION", {version}), (PATH, {document()["info"]["version"]}))
    return document_faults + differ("version", ("VERSION", {version}), ("CHANGELOG.md", {newest[1] if newest else ""}))


def faults() -> list[str]:
    try:
        told = differ("refusals", (PATH, refusals()), (FORMATS, refusals_told())) + differ("refusals", (PATH, refusals()), ("the code", refusals_of_code()))
        return [*as_a_whole(), *own_faults(), *versions(), *routes(), *told, *statuses(), *examples_are_so()]
    except KeyError as why:
        return [*as_a_whole(), f"{PATH}: there is no {why}"]
