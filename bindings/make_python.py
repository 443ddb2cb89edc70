"""What bindings/make.py makes of the Python package: a function that gives each call as a value, a session's method for each, and an
exception for each refusal."""
import re
import textwrap

WIDTH = 120
PACKAGE = "bindings/python/src/histar"
LABELS = ("label", "clearance", "verify")
NUMBERS = ("u32", "u64", "i32", "kinds", "rights")

TYPES = {"container": "Object", "target": "Object", "entry": "Entry", "other": "Entry", "kinds": "Kinds", "rights": "Rights", "bytes": "Bytes"}
# (the type of an answer, and what reads it)
ANSWERS = {
    "ok": ("None", "done"), "category": ("Category", "told_category"), "object": ("Object", "told_object"), "entered": ("Entered", "told_entered"),
    "packet": ("bytes", "told_data"), "data": ("bytes", "told_data"), "read": ("bytes", "told_data"), "own": ("Own", "told_own"), "label": ("Label", "told_label"),
    "quota": ("Quota", "told_quota"), "listed": ("Listed", "told_listed"), "parent": ("Object", "told_object"), "pages": ("int", "told_number"),
    "mapping": ("Optional[Mapping]", "told_mapping"),
}
FROM_CALL = ("NO_LABEL", "WRONG", "Bytes", "Call", "done", "length", "plain", "refuse", "signed", "told_category", "told_data",
             "told_entered", "told_label", "told_listed", "told_mapping", "told_number", "told_object", "told_own", "told_quota", "with_bytes", "with_labels")
CHECKED = {"Bytes": "bytes"}
RENAMED = {"from": "start", "bytes": "data"}


def name_of(argument):
    return RENAMED.get(argument.name, argument.name)


def type_of(argument):
    return "Label" if argument.kind in LABELS else TYPES.get(argument.kind, "int")


def typed(call):
    return [f"{name_of(it)}: {type_of(it)}" for it in call.arguments]


def head(name, given, answer, indent):
    """A function's head, in one line where it fits."""
    line = f"{indent}def {name}({', '.join(given)}) -> {answer}:"
    if len(line) <= WIDTH:
        return line + "\n"
    return f"{indent}def {name}(\n" + "".join(f"{indent}    {it},\n" for it in given) + f"{indent}) -> {answer}:\n"


def remark(call, indent):
    """What a call does, what its arguments are, and what refuses it."""
    told = call.does.replace("`Entry::NONE`", "`Entry.NONE`")
    paragraphs = [told]
    paragraphs += [f"{name_of(it)}: {it.means.replace('::', '.')}" for it in call.arguments if it.means]
    if call.refusals:
        paragraphs.append("Refused " + ", ".join(f"{it} {when}".rstrip() for it, when in call.refusals) + ".")
    lines = [line for it in paragraphs for line in textwrap.wrap(it, WIDTH - len(indent) - 4, break_on_hyphens=False)]
    first = len(textwrap.wrap(told, WIDTH - len(indent) - 4, break_on_hyphens=False))
    body = lines[:first] + ([""] if lines[first:] else []) + lines[first:]
    if len(body) == 1 and len(body[0]) + len(indent) + 6 <= WIDTH:
        return f'{indent}"""{body[0]}"""\n'
    return f'{indent}"""' + "\n".join(f"{indent}{it}" if it else "" for it in body).lstrip() + f'\n{indent}"""\n'


def number(argument):
    name = name_of(argument)
    return f"signed({name})" if argument.kind == "i32" else name


def packed(call):
    """The expression that packs a call's record."""
    first, entry, other, target, data = (call.one(it) for it in ("container", "entry", "other", "target", "bytes"))
    at = [f"{name_of(first)}.id", "0"] if first else [f"{name_of(entry)}.container.id", f"{name_of(entry)}.object.id"] if entry else ["0", "0"]
    there = [f"{name_of(target)}.id", "0"] if target else [f"{name_of(other)}.container.id", f"{name_of(other)}.object.id"] if other else ["0", "0"]
    numbers = [number(it) for it in call.of(*NUMBERS)]
    words = [str(call.number), f"length({name_of(data)})" if data else "0", "0", *at, *there, *numbers, *["0"] * (5 - len(numbers))]
    if call.of(*LABELS):
        found = {it.kind: f"{name_of(it)}._record" for it in call.of(*LABELS)}
        return "with_labels", [*words, *(found.get(it, "NO_LABEL") for it in LABELS)]
    return ("with_bytes", [*words, name_of(data)]) if data else ("plain", words)


def named(call):
    """The object that a refusal tells."""
    first, entry = call.one("container"), call.one("entry")
    return f"{name_of(first)}.id" if first else f"{name_of(entry)}.object.id" if entry else "None"


def wrapped(start, words, end, indent):
    """An expression of many words, as lines that fit."""
    line = f"{indent}{start}{', '.join(words)}{end}"
    if len(line) <= WIDTH:
        return line + "\n"
    inner = textwrap.wrap(", ".join(words), WIDTH - len(indent) - 4, break_long_words=False, break_on_hyphens=False)
    return f"{indent}{start}\n" + "".join(f"{indent}    {it}\n" for it in inner) + f"{indent}{end}\n"


def function(call):
    answer, read = ANSWERS[call.answer]
    pack, words = packed(call)
    made = head(call.name, typed(call), f"Call[{answer}]", "") + remark(call, "    ")
    value = f'Call("{call.name}", {named(call)}, record, {read})'
    if not call.arguments:
        return made + wrapped(f"record = {pack}(", words, ")", "    ") + f"    return {value}\n"
    given = [f"{name_of(it)}=({name_of(it)}, {CHECKED.get(type_of(it), type_of(it))})" for it in call.arguments]
    made += "    try:\n" + wrapped(f"record = {pack}(", words, ")", " " * 8) + f"        return {value}\n    except WRONG as fault:\n"
    return made + wrapped(f'refuse("{call.name}", fault, ', given, ")", " " * 8)


def method(call):
    answer = "Session" if call.name == "thread_create" else ANSWERS[call.answer][0]
    passed = ", ".join(name_of(it) for it in call.arguments)
    asked = f"self.call(calls.{call.name}({passed}))"
    if call.name == "thread_create":
        asked = f"self._session_of({asked})"
    made = head(call.name, ["self", *typed(call)], answer, "    ") + remark(call, " " * 8)
    return made + f"        return {asked}\n"


def calls_file(calls):
    return ('"""Each call as a value, for `Session.call` and `Seat.batch`. Made from bindings/calls.toml by bindings/make.py."""\n'
            "from typing import Optional\n\n"
            "from ._call import (\n" + "".join(f"    {it},\n" for it in FROM_CALL) + ")\n"
            "from .labels import Category, Label\n"
            "from .names import Entered, Entry, Kinds, Listed, Mapping, Object, Own, Quota, Rights\n\n\n" + "\n\n".join(function(it) for it in calls))


def methods_file(calls):
    return ('"""A session\'s method for each call. Made from bindings/calls.toml by bindings/make.py."""\n'
            "from abc import abstractmethod\nfrom typing import TYPE_CHECKING, Optional, TypeVar\n\n"
            "from . import calls\nfrom ._call import Bytes, Call\nfrom .labels import Category, Label\n"
            "from .names import Entered, Entry, Kinds, Listed, Mapping, Object, Own, Quota, Rights\n\n"
            "if TYPE_CHECKING:\n    from .kernel import Session\n\nT = TypeVar(\"T\")\n\n\n"
            'class Methods:\n    """The calls of a thread: a method a call, named as the script\'s word."""\n\n    __slots__ = ()\n\n'
            "    @abstractmethod\n    def call(self, call: Call[T]) -> T: ...\n\n"
            '    @abstractmethod\n    def _session_of(self, thread: Object) -> "Session": ...\n\n'
            + "\n".join(method(it) for it in calls).replace("-> Session:", '-> "Session":'))


REFUSED = '''"""Why a call was refused: an exception for each refusal. Made from include/histar.h by bindings/make.py."""
from typing import ClassVar, Optional


class Refused(Exception):
    """A call was refused, and changed nothing: which call, of which object, and why by a number and a name."""

    number: ClassVar[int] = 0

    def __init__(self, call: str = "", object: Optional[int] = None) -> None:
        super().__init__(call, object)
        self.call = call
        self.object = object

    @property
    def name(self) -> str:
        """The name of the refusal, as docs/CALLS.md or docs/EMBED.md has it."""
        return type(self).__name__

    def __str__(self) -> str:
        of = f" #{self.object}" if self.object is not None else ""
        return f"{self.call}{of}: {self.number} {self.name}"


'''


def refusals(header):
    """(number, name, when) of each refusal of a header."""
    names = dict(re.findall(r'case (HISTAR_\w+): return "(\w+)";', header))
    for constant, value, when in re.findall(r"^    (HISTAR_\w+) = (\d+),? +/\* (.*?) \*/$", header, re.M):
        if constant in names:
            yield value, names[constant], when


def refusals_file(header):
    found = list(refusals(header))
    made = "\n\n".join(f'class {name}(Refused):\n    """{when[0].upper()}{when[1:]}."""\n\n    number = {value}\n' for value, name, when in found)
    listed = "".join(f"        {name},\n" for _, name, _ in found)
    names = ["Refused", *(name for _, name, _ in found)]
    shown = "__all__ = [\n" + "".join(f'    "{it}",\n' for it in names) + "]\n\n"
    return REFUSED.replace("\n\nclass", f"\n\n{shown}\nclass", 1) + made + f"\n\nREFUSALS: dict[int, type[Refused]] = {{\n    it.number: it\n    for it in (\n{listed}    )\n}}\n"


def files(calls, header):
    yield f"{PACKAGE}/calls.py", calls_file(calls)
    yield f"{PACKAGE}/_methods.py", methods_file(calls)
    yield f"{PACKAGE}/refusals.py", refusals_file(header)
