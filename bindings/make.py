#!/usr/bin/env python3
"""bindings/make.py           makes, from bindings/calls.toml, what the headers, the Rust crate, the Python package, the players and docs/CALLS.md say of each
                           call
bindings/make.py --check   says which of these files are stale, and changes none: status 1 where one is

A made part stands between two lines of the file, which both name calls.toml. The Rust files of methods, three of Python's, the header for cffi and the player's calls in C are made whole."""
import pathlib
import re
import sys
import textwrap
import tomllib

sys.dont_write_bytecode = True

import make_python  # noqa: E402

TOP = pathlib.Path(__file__).resolve().parent.parent
WIDTH = 120
RUST = "bindings/rust/histar/src"

# Kinds of arguments that are numbers of the record.
NUMBERS = ("u32", "u64", "i32", "kinds", "rights")
LABELS = ("label", "clearance", "verify")


class Argument:
    """An argument of a call: its name, its kind, and what it is."""

    def __init__(self, name, kind, means=""):
        self.name, self.kind, self.means = name, kind, means


class Call:
    """A call, as its table says."""

    def __init__(self, name, table):
        self.name = name
        self.number, self.group, self.does, self.row = (table[it] for it in ("number", "group", "does", "row"))
        self.arguments = [Argument(*it) for it in table.get("arguments", ())]
        self.answer = table.get("answer", "ok")
        self.refusals = [(it, when) for it, _, when in (it.partition(" ") for it in table.get("refusals", ()))]
        self.in_c, self.in_rust, self.example = (table.get(it, "") for it in ("c", "rust", "example"))

    @property
    def is_read(self):
        return self.number > 24

    @property
    def camel(self):
        return "".join(it.capitalize() for it in self.name.split("_"))

    @property
    def constant(self):
        return f"HISTAR_CALL_{self.name.upper()}"

    def of(self, *kinds):
        """Its arguments of these kinds."""
        return [it for it in self.arguments if it.kind in kinds]

    def one(self, *kinds):
        """Its only argument of these kinds, if it has one."""
        return next(iter(self.of(*kinds)), None)


def calls():
    with open(TOP / "bindings/calls.toml", "rb") as table:
        return [Call(*it) for it in tomllib.load(table).items()]


# ---- The header ----

def capitals(name):
    """`NO_QUOTA` of `NoQuota`."""
    return re.sub(r"(?<!^)([A-Z])", r"_\1", name).upper()


def refusals_in_c(call):
    """`HISTAR_NO_QUOTA, HISTAR_BOUNDS.`; of a new object, those beside what refuses each of these."""
    of_each = ("CannotObserve", "CannotModify", "BadLabel", "LabelRange", "AvoidType", "NoQuota", "Immutable", "Spent")
    is_new = call.answer == "object" and set(of_each) <= {it[0] for it in call.refusals}
    own = [it for it in call.refusals if not is_new or it[0] not in of_each]
    names = ", ".join(f"HISTAR_{capitals(it)} {when}".rstrip() for it, when in own)
    if not is_new:
        return names and names + "."
    return f"What refuses each new object, and {names}." if own else "What refuses each new object."


def remark(lines):
    """A remark of C."""
    text = textwrap.wrap(" ".join(it for it in lines if it), WIDTH - 6)
    return "/* " + "\n * ".join(text) + " */\n"


def types_in_c(argument):
    """The parameters of an argument, each with its type, and whether it is a pointer that may not be NULL."""
    name, kind = argument.name, argument.kind
    return {
        "container": [(f"histar_object {name}", False)], "target": [(f"histar_object {name}", False)],
        "entry": [(f"histar_entry {name}", False)], "other": [(f"histar_entry {name}", False)],
        "i32": [(f"int64_t {name}", False)],
        "bytes": [("const void *bytes", "0 to" not in argument.means), ("uint64_t len", False)],
    }.get(kind) or ([(f"const histar_label *{name}", True)] if kind in LABELS else [(f"uint64_t {name}", False)])


# What an answer's function is given, and how it ends: `R` is told by histar_serves before.
GIVEN_IN_C = {
    "ok": [], "category": [("histar_category *category", False)], "object": [("histar_object *made", False)],
    "entered": [("uint64_t *entry_point", False), ("uint64_t *closure", False)],
    "packet": [("void *bytes", True), ("uint64_t size", False), ("size_t *len", True)],
    "data": [("void *bytes", True), ("uint64_t size", False)],
    "own": [("histar_self *self", True)], "label": [("histar_label *label", True)], "quota": [("histar_quota *quota", True)],
    "listed": [("histar_list *list", True)], "parent": [("histar_object *parent", True)], "pages": [("uint64_t *pages", True)],
    "mapping": [("histar_mapping *mapping", True)],
}
ENDS_IN_C = {
    "category": ["return histar_counted(k, category ? &category->number : NULL);"],
    "object": ["return histar_made(k, made);"],
    "parent": ["return histar_made(k, parent);"],
    "pages": ["return histar_counted(k, pages);"],
    "packet": ["return histar_takes(k, bytes, size, len);"],
    "data": ["return histar_takes(k, bytes, size, NULL);"],
    "read": ["return histar_takes(k, bytes, 64, NULL);"],
    "entered": ["if (!refusal && entry_point) *entry_point = k->answer.numbers[0];", "if (!refusal && closure) *closure = k->answer.numbers[1];"],
    "label": ["if (!refusal) *label = k->answer.label;"],
    "own": ["if (!refusal) histar_self_of(&k->answer, self);"],
    "quota": ["if (!refusal) histar_quota_of(&k->answer, quota);"],
    "listed": ["if (!refusal) histar_list_of(&k->answer, list);"],
    "mapping": ["if (!refusal) histar_mapping_of(&k->answer, mapping);"],
}


def fills_in_c(call):
    """The statements that write a call's arguments into the record."""
    numbers = call.of(*NUMBERS)
    for it in call.of(*LABELS):
        yield f"k->request.{it.kind} = *{it.name};"
    for it in call.of("other"):
        yield f"k->request.other_container = {it.name}.container.id;"
        yield f"k->request.other_object = {it.name}.object.id;"
    for it in call.of("target"):
        yield f"k->request.other_container = {it.name}.id;"
    for place, it in enumerate(numbers):
        name = "len" if call.answer == "read" and place == 1 else it.name
        if it.kind == "i32":
            yield "/* 32 bits in two's complement; any other number makes no call */"
            name = f"{name} >= INT32_MIN && {name} <= INT32_MAX ? (uint32_t){name} : UINT64_MAX"
        yield f"k->request.numbers[{place}] = {name};"


def ends_in_c(call):
    """The statements that make the call and tell its answer."""
    if call.answer == "ok":
        return ["return histar_gives(k, bytes, len);" if call.one("bytes") else "return histar_done(k);"]
    ends = ENDS_IN_C[call.answer]
    return ends if ends[0].startswith("return") else ["refusal = histar_serves(k);", *ends, "return histar_told(k, refusal);"]


def function_in_c(call):
    given = [it for argument in call.arguments for it in types_in_c(argument)]
    if call.answer == "read":
        given = [*given[:-1], ("void *bytes", True), ("uint64_t len", False)]
    else:
        given += GIVEN_IN_C[call.answer]
    looked_at = ", ".join(["1", *(str(place) for place, it in enumerate(given, 3) if it[1])])
    first, named = call.one("container"), call.one("entry")
    entry = f"histar_in({first.name}, HISTAR_NOTHING)" if first else named.name if named else "HISTAR_NOWHERE"
    head = f"HISTAR_INLINE uint32_t histar_{call.name}("
    parameters = ", ".join(["histar *k", "histar_object thread", *(it[0] for it in given)]) + ")"
    wrapped = [it.replace("\0", " ") for it in textwrap.wrap(re.sub(r"(?<!,) ", "\0", parameters), WIDTH - len(head))]
    body = [f"uint32_t refusal = histar_asks(k, {call.constant}, thread, {entry});", "if (refusal) return refusal;", *fills_in_c(call), *ends_in_c(call)]
    return (remark([call.does.replace("`{3}`", "{3}"), call.in_c, refusals_in_c(call)]) + f"HISTAR_LOOKED_AT({looked_at})\n" + head
            + ("\n" + " " * len(head)).join(wrapped) + "\n{\n" + "".join(f"    {it}\n" for it in body) + "}\n")


# What of the header is declared where nothing is compiled: enumerations, records, and functions. A kernel is a record that is not looked into.
DECLARED = re.compile(
    r"^(?:(?P<kept>enum \w* ?\{[^}]*\};|typedef struct \{[^}]*\} \w+;|typedef [^{;]*;|extern [^{;]*;|(?:size_t|u?int\w+_t|void|int|histar) [^{;=]*\)(?=;))"
    r"|typedef struct (?P<hidden>\w+) \{|(?:HISTAR_INLINE|__attribute__\(\(nonnull\)\) HISTAR_INTO_CALLER) (?P<function>[^{]*\))\s*\{)", re.M)
NUMBERED = re.compile(r"^#define (HISTAR_VERSION_NUMBER|HISTAR_LAYOUT) (\d+)$", re.M)


def declared(header):
    """What a header declares, without its remarks."""
    text = re.sub(r"/\*.*?\*/", "", header, flags=re.S)
    for it in NUMBERED.finditer(text):
        yield f"#define {it[1]} {it[2]}"
    for it in DECLARED.finditer(text):
        if "HISTAR_IS_FREE" in it[0] or "histar_put put;" in it[0] or "left;" in it[0]:
            continue
        found = it["kept"] or it["function"]
        yield f"typedef struct {it['hidden']} {it['hidden']};" if it["hidden"] else re.sub(r"\s+", " ", found.removesuffix(";")) + ";"


def without_compiler():
    """The header for what reads declarations and compiles nothing."""
    lines = ["/* What histar.h and histar_debug.h declare, for cffi and others that read declarations and compile nothing. histar.h says what each does, and",
             " * histar_new gives a kernel. Made from them by bindings/make.py, which makes their calls from bindings/calls.toml. */"]
    for name in ("histar", "histar_debug"):
        lines += declared(made_header() if name == "histar" else (TOP / f"include/{name}.h").read_text())
    return "\n".join(lines) + "\n"


# ---- The Rust crate ----

def docs(text, indent):
    """A remark of Rust's documents."""
    return "".join(f"{indent}/// {it}\n" for it in textwrap.wrap(text, WIDTH - len(indent) - 4, break_on_hyphens=False))


TYPES = {"container": "Object", "target": "Object", "entry": "Entry", "other": "Entry", "kinds": "Kinds", "rights": "Rights", "bytes": "Cow<'a, [u8]>"}
ANSWERS = {
    "ok": "()", "category": "Category", "object": "Object", "entered": "Entered", "packet": "Bytes", "data": "Bytes", "read": "Bytes", "own": "Own", "label": "Label",
    "quota": "Quota", "listed": "Listed", "parent": "Object", "pages": "u32", "mapping": "Option<Mapping>",
}
REPLIES = {"packet": "Bytes", "data": "Bytes", "read": "Bytes", "parent": "Parent", "pages": "Pages", "mapping": "Mapping", "object": "Object"}


def fields(call):
    """The fields of a call as a value: (name, type, what it is)."""
    mapping = [it.name for it in call.arguments] if call.name == "as_map" else []
    for it in call.arguments:
        if it.name in mapping[2:]:
            continue
        kind = "Cow<'a, Label>" if it.kind in LABELS else TYPES.get(it.kind, it.kind)
        yield ("entry" if it.name == "device" else it.name), kind, it.means
    if mapping:
        yield "mapping", "Mapping", "What it maps."


def names(call):
    return [it[0] for it in fields(call)]


def pattern(call):
    return f"Call::{call.camel}" + (f" {{ {', '.join(names(call))} }}" if call.arguments else "")


def variant(call):
    made = docs(call.does, "    ")
    if call.name == "gate_create":
        return made + "    GateCreate(NewGate<'a>),\n"
    if not call.arguments:
        return made + f"    {call.camel},\n"
    return made + f"    {call.camel} {{\n" + "".join(docs(means, " " * 8) + f"        {name}: {kind},\n" for name, kind, means in fields(call)) + "    },\n"


def number_in_rust(it, of=""):
    if it.kind in ("kinds", "rights"):
        return f"{it.kind}_number({of and '&' + of}{it.name})"
    value = of + it.name if of else "*" + it.name
    return {"u64": value, "i32": f"u64::from({value} as u32)"}.get(it.kind, f"u64::from({value})")


def written(call):
    """The statements that write a call into a record."""
    of = "gate." if call.name == "gate_create" else ""
    lend = "&" if of else ""
    first, named = call.one("container"), call.one("entry")
    made = [f"self.put_bytes({lend}{of}{it.name});" for it in call.of("bytes")]
    made += [f"self.{it.kind}.put({lend}{of}{it.name});" for it in call.of(*LABELS)]
    if call.name == "as_map":
        made.append("self.put_other(&mapping.segment);")
        numbers = ["u64::from(*slot)", *(number_in_rust(it, "mapping.") for it in call.of(*NUMBERS)[1:])]
    else:
        made += [f"self.put_other({lend}{of}{it.name});" for it in call.of("other")]
        made += [f"self.other_container = {it.name}.0;" for it in call.of("target")]
        numbers = [number_in_rust(it, of) for it in call.of(*NUMBERS)]
    entry = "entry" if named and named.name == "device" else named and named.name
    entry = f"&Entry::new({of or '*'}{first.name}, Object::NONE)" if first else entry or "&Entry::NONE"
    if not call.arguments:
        return [f"self.put({call.number}, &Entry::NONE, []);"]
    return [*made, f"self.put({call.number}, {entry}, [{', '.join(numbers)}]);"]


def arm(head, statements, indent):
    """An arm of a match, as rustfmt has it."""
    if len(statements) == 1:
        value = statements[0].removesuffix(";")
        line = f"{indent}{head} => {value},"
        if len(line) <= WIDTH:
            return line + "\n"
    lines = []
    for it in statements:
        if len(it) + len(indent) + 4 > WIDTH:
            start, rest = it.split("[", 1)
            whole = f"let numbers = [{rest.removesuffix(');')};"
            fits = len(whole) + len(indent) + 4 <= WIDTH
            lines += [whole] if fits else ["let numbers = [", *(f"    {it}," for it in rest.removesuffix("]);").split(", ")), "];"]
            lines.append(f"{start}numbers);")
        else:
            lines.append(it)
    return f"{indent}{head} => {{\n" + "".join(f"{indent}    {it}\n" for it in lines) + f"{indent}}}\n"


def write_arm(call):
    head = "Call::GateCreate(gate)" if call.name == "gate_create" else pattern(call)
    return arm(head, written(call), " " * 12)


def own_arm(call):
    """The arm by which a call gets labels and bytes of its own."""
    head = f"Call::GateCreate(NewGate {{ {', '.join(names(call))} }})" if call.name == "gate_create" else pattern(call)
    lent = [name for name, kind, _ in fields(call) if kind.startswith("Cow")]
    value = head
    if len(lent) == 1:
        value = re.sub(rf"\b{lent[0]}\b(?! \{{)", f"{lent[0]}: owned({lent[0]})", head)
    many = ", ".join(lent), ", ".join(f"owned({it})" for it in lent)
    opening = [f"let ({many[0]}) = ({many[1]});"] if len(lent) > 1 else []
    indent = " " * 12
    line = f"{indent}{head} => {value},\n"
    if not opening and len(line) <= WIDTH + 1:
        return line
    return f"{indent}{head} => {{\n" + "".join(f"{indent}    {it}\n" for it in [*opening, value]) + f"{indent}}}\n"


def shown_arm(call):
    """The arm that prints a call, but of bytes how many there are."""
    if call.name == "gate_create":
        return '            Call::GateCreate(gate) => f.debug_tuple("GateCreate").field(gate).finish(),\n'
    opening = [f"let {it.name} = &Length({it.name}.len());" for it in call.of("bytes")]
    return arm(pattern(call), [*opening, f"shown!({', '.join(['f', chr(34) + call.camel + chr(34), *names(call)])})"], " " * 12)


def read_test(reads):
    """The test whether a call changes nothing."""
    kinds = [f"Call::{it.camel}{' { .. }' if it.arguments else ''}\n" for it in reads]
    return f"        matches!(\n            self,\n            {'                | '.join(kinds)}        )\n"


def method(call):
    """A session's method."""
    indent = "    "
    example = call.example.rstrip("\n").split("\n")
    errors = ", ".join(f"[`{it}`] {when}".rstrip() for it, when in call.refusals) + "." if call.refusals else "Those of every call."
    made = docs(f"{call.does} {call.in_rust}".strip(), indent) + "    ///\n    /// ```\n"
    shown = [example[0], "# let kernel = histar::Kernel::boot(64)?;", "# let boot = kernel.session();", *example[1:], "# Ok::<(), histar::Refused>(())"]
    made += "".join(f"    /// {it}\n" for it in shown) + "    /// ```\n    ///\n    /// # Errors\n" + docs(errors, indent)
    kinds = [("device" if name == "entry" and call.one("entry").name == "device" else name, kind) for name, kind, _ in fields(call)]
    kinds = [(name, {"Cow<'a, Label>": "&Label", "Cow<'a, [u8]>": "&[u8]"}.get(kind, kind)) for name, kind in kinds]
    if call.name == "gate_create":
        kinds = [("gate", "&NewGate<'_>")]
    answer = "Session<'k>" if call.name == "thread_create" else ANSWERS[call.answer]
    head = [f"pub fn {call.name}(", ["&self", *(f"{name}: {kind}" for name, kind in kinds)], f") -> Result<{answer}, Refused> {{"]
    made += fit(head, indent)
    values = [f"{name}: {given}.into()" if kind[0] == "&" else name if name == given else f"{name}: {given}"
              for (name, _, _), (given, kind) in zip(fields(call), kinds)]
    value = f"Call::{call.camel}" + (f" {{ {', '.join(values)} }}" if values else "")
    value = "Call::GateCreate(gate.clone())" if call.name == "gate_create" else value
    return made + "".join(f"{indent}    {it}\n" if it else "\n" for it in asked(call, value)) + f"{indent}}}\n"


def fit(head, indent):
    """A function's head in one line where it fits, else a line for each parameter."""
    line = indent + head[0] + ", ".join(head[1]) + head[2]
    if len(line) <= WIDTH:
        return line + "\n"
    return indent + head[0] + "\n" + "".join(f"{indent}    {it},\n" for it in head[1]) + indent + head[2] + "\n"


def asked(call, value):
    """The statements of a method: makes the call, and gives its answer."""
    is_long = len(value) > 70
    opening = [f"let call = {value};"] if is_long else []
    if len(value) > WIDTH - 20:
        opening = ["let call =", f"    {value};"]
    given = "&call" if is_long else f"&{value}"
    if call.name == "thread_create":
        return [*opening, "let made: Result<Object, Refused> = expect_reply!(self.call(&call)?, Reply::Object);",
                "made.map(|thread| Session::new(self.kernel, thread.into()))"]
    if call.answer == "ok":
        return [*opening, f"self.done({given})"]
    told = f"self.call({given})?", f"Reply::{REPLIES.get(call.answer, call.answer.capitalize())}"
    line = f"expect_reply!({told[0]}, {told[1]})"
    return [*opening, *([line] if len(line) + 8 <= WIDTH else ["expect_reply!(", f"    {told[0]},", f"    {told[1]}", ")"])]


GROUPS = {
    "link": "containers, links and quotas", "memory": "segments, metadata, address spaces and devices", "thread": "categories, labels, threads and gates",
}


def methods(group, made):
    """The file of a group's methods."""
    life = "'k" if group == "thread" else "'_"
    text = "\n".join(made)
    code = re.sub(r"///.*", "", text)
    used = [it for it in ("Bytes", "Call", "Category", "Entered", "Entry", "Kinds", "Label", "Listed", "Mapping", "NewGate", "Object", "Own", "Quota", "Refused", "Reply")
            if re.search(rf"\b{it}\b(?!<?'?\()", code) and (it != "Own" or "Result<Own" in code)]
    used = [it for it in used if re.search(rf"(?<!Reply::)(?<!:){it}\b", code)]
    return (f"//! Calls about {GROUPS[group]}. Made from bindings/calls.toml by bindings/make.py.\nuse super::Session;\nuse crate::{{{', '.join(used)}}};\n\n"
            f"#[cfg(doc)]\nuse crate::Refusal::*;\n\n/// {GROUPS[group].capitalize()}.\nimpl{'' if life != chr(39) + 'k' else '<' + life + '>'} Session<{life}> {{\n{text}}}\n")


# ---- The players ----

def reads_in_rust(it):
    return {"container": "self.object()?", "target": "self.object()?", "entry": "self.entry()?", "other": "self.entry()?", "bytes": "self.bytes()",
            "kinds": "self.kinds()", "rights": "self.rights()"}.get(it.kind, "self.label()?" if it.kind in LABELS else "self.number()")


def played_in_rust(call):
    indent = " " * 12
    head = f'{indent}"{call.name}" =>'
    if not call.arguments:
        return f"{head} Call::{call.camel},\n"
    if call.name == "as_map":
        return (f"{head} {{\n{indent}    let (space, slot, page) = (self.entry()?, self.number(), self.number());\n"
                f"{indent}    let (segment, first, count) = (self.entry()?, self.number(), self.number());\n"
                f"{indent}    Call::AsMap {{ space, slot, mapping: Mapping {{ page, segment, first, count, rights: self.rights() }} }}\n{indent}}}\n")
    read = [f"{name}: {reads_in_rust(it)}" for name, it in zip(names(call), call.arguments)]
    opening, end = ("Call::GateCreate(NewGate {", "})") if call.name == "gate_create" else (f"Call::{call.camel} {{", "}")
    line = f"{head} {opening} {', '.join(read)} {end},\n"
    if len(line) <= WIDTH + 1:
        return line
    return f"{head} {opening}\n" + "".join(f"{indent}    {it},\n" for it in read) + f"{indent}{end},\n"


# (a variable's type, and how it is read off the line)
READS_IN_C = {"container": ("histar_object", "object()"), "target": ("histar_object", "object()"), "entry": ("histar_entry", "entry()"), "other": ("histar_entry", "entry()"),
              "i32": ("int64_t", "strtoll(word(), NULL, 10)"), "kinds": ("uint64_t", 'set("csatgd")'), "rights": ("uint64_t", 'set("rw")')}
# (what is declared for the answer, what the function is given, and what is said of it)
ANSWERED_IN_C = {
    "ok": ([], [], ['says("ok");']),
    "category": ([], ["&now->category"], ['says("cat");', "now->has_category = 1;"]),
    "object": (["histar_object made = HISTAR_NOTHING;"], ["&made"], ['says_object("id", made);']),
    "parent": (["histar_object parent = HISTAR_NOTHING;"], ["&parent"], ['says_object("parent", parent);']),
    "entered": (["uint64_t entry_point = 0, closure = 0;"], ["&entry_point", "&closure"], ['says("entered");', "says_number(entry_point);", "says_number(closure);"]),
    "packet": ([], ["now->bytes", "sizeof now->bytes", "&now->len"], ['says("data");']),
    "data": ([], ["now->bytes", "sizeof now->bytes"], ["now->len = 64;", 'says("data");']),
    "read": ([], [], ["now->len = its_count;", 'says("data");']),
    "pages": (["uint64_t pages = 0;"], ["&pages"], ['says("pages");', "says_number(pages);"]),
    "label": (["histar_label told = histar_level(0);"], ["&told"], ['says("label");', "says_label(told);"]),
    "quota": (["histar_quota quota = {0, 0, 0, 0};"], ["&quota"],
              ['says("quota");', "says_number(quota.quota);", "says_number(quota.used);", "says_number(quota.fixed);", "says_number(quota.immutable);"]),
    "listed": (["histar_list list;"], ["&list"],
               ["if (now->refusal) return;", 'says("list");', "says_number(list.length);", "now->object_count = list.count;",
                "memcpy(now->objects, list.objects, sizeof list.objects);"]),
    "mapping": ([], ["&now->mapping"], ['says("mapping");', "now->has_mapping = 1;"]),
    "own": (["histar_self self;", "memset(&self, 0, sizeof self);"], ["&self"],
            ["if (now->refusal) return;", "says_label(self.label);", "says_label(self.clearance);", "says_label(self.verify);", 'says_object("self", self.space.container);',
             'says_object("self", self.space.object);', "says_number(self.entry_point);", "says_number(self.closure);"]),
}


def played_in_c(call):
    declared, given, said = ANSWERED_IN_C[call.answer]
    lines, passed = [], []
    for it in call.arguments:
        if it.kind == "bytes":
            lines += ["uint8_t given[64];", "size_t len = bytes(given);"]
            passed += ["given", "len"]
            continue
        kind, read = ("histar_label", "label()") if it.kind in LABELS else READS_IN_C.get(it.kind, ("uint64_t", "number()"))
        name = f"its_{it.name}"
        lines.append(f"{kind} {name} = {read};")
        passed.append(f"&{name}" if it.kind in LABELS else name)
    if call.answer == "read":
        passed = [*passed[:-1], "now->bytes", "its_count"]
    asks = [f"now->refusal = histar_{call.name}({', '.join(['&k', 'thread', *passed, *given])});"]
    body = [*lines, *declared, *(["KNOWN();"] if call.arguments else []), *asks, *said]
    return f"static void plays_{call.name}(histar_object thread)\n{{\n" + "".join(f"    {it}\n" for it in body) + "}\n"


def player_in_c(all_calls):
    return ("""/* The calls, each by its function of histar.h. Made from bindings/calls.toml by bindings/make.py. */
#include "play.h"

static void says(const char *text) { snprintf(now->word, sizeof now->word, "%s", text); }

static void says_object(const char *text, histar_object object)
{
    says(text);
    now->objects[now->object_count++] = object;
}

static void says_number(uint64_t it) { now->numbers[now->number_count++] = it; }
static void says_label(histar_label it) { now->labels[now->label_count++] = it; }

/* Each call reads its arguments in order, and gives up before it asks where a name is not known. */
#define KNOWN() \\
    if (now->unbound[0]) return

""" + "\n".join(played_in_c(it) for it in all_calls) + """
static const struct {
    const char *call;
    void (*plays)(histar_object);
} players[] = {
""" + "".join(f'    {{"{it.name}", plays_{it.name}}},\n' for it in all_calls) + """};

void plays(histar_object thread)
{
    const char *call = strtok_r(now->call, " ", &rest);
    for (size_t at = 0; at < sizeof players / sizeof *players; at++)
        if (!strcmp(call, players[at].call)) players[at].plays(thread);
}
""")


# ---- docs/CALLS.md ----

def row(call):
    words, *cells = call.row
    return f"| `{f'{call.name} {words}'.strip()}` | {' | '.join(cells)} |\n".replace("|  |", "| |")


# ---- What is made, and where ----

def parts(all_calls):
    """(file, the line before a made part, the line after it, what stands between)"""
    writes, reads = [it for it in all_calls if not it.is_read], [it for it in all_calls if it.is_read]
    joined = lambda make, given=all_calls, by="": by.join(make(it) for it in given)
    c, rust = ("/* Made from bindings/calls.toml: */", "/* (the end of what is made) */"), ("// Made from bindings/calls.toml:", "// (the end of what is made)")
    return [
        ("include/histar.h", c, [
            joined(lambda it: f"    {it.constant} = {it.number},\n"),
            joined(function_in_c, writes, "\n"),
            joined(function_in_c, reads, "\n")]),
        ("bindings/library/calls.c", c, [joined(lambda it: f'    {{"{it.name}", {it.constant}}},\n')]),
        (f"{RUST}/call.rs", rust, [
            joined(variant), joined(own_arm), read_test(reads), joined(shown_arm)]),
        (f"{RUST}/records.rs", rust, [joined(write_arm), joined(lambda it: f'    "{it.name}",\n')]),
        ("bindings/rust/histar/examples/play/words.rs", rust, [joined(played_in_rust)]),
        ("docs/CALLS.md", ("|---|---|---|---|", ""), [joined(row, writes), joined(row, reads)]),
    ]


def made_in(text, marks, made):
    """The text of a file with its made parts as they are to be."""
    begin, end = marks
    pieces = re.split(rf"(?m)(^ *{re.escape(begin)}\n)", text)
    if len(pieces) < 2 * len(made) + 1:
        raise SystemExit(f"make: {begin!r} stands {len(pieces) // 2} times, and not {len(made)}")
    for place, it in enumerate(made):
        after = pieces[2 * place + 2]
        found = re.search(rf"(?m)^ *{re.escape(end)}" if end else "(?m)^$", after).start()
        pieces[2 * place + 2] = it + after[found:]
    return "".join(pieces)


def made_header():
    """include/histar.h as it is to be."""
    path, marks, made = parts(calls())[0]
    return made_in((TOP / path).read_text(), marks, made)


def files():
    """Each file with its text as it is to be."""
    all_calls = calls()
    for path, marks, made in parts(all_calls):
        yield path, made_in((TOP / path).read_text(), marks, made)
    for group in GROUPS:
        yield f"{RUST}/session/{group}_calls.rs", methods(group, [method(it) for it in all_calls if it.group == group])
    yield "bindings/c/play/calls.c", player_in_c(all_calls)
    yield "include/histar.cffi.h", without_compiler()
    yield from make_python.files(all_calls, made_header())


def main(words):
    if words not in ([], ["--check"]):
        raise SystemExit(__doc__)
    stale = [(path, text) for path, text in files() if not (TOP / path).exists() or (TOP / path).read_text() != text]
    for path, text in stale:
        print(f"make: {path} {'is stale' if words else 'is made'}")
        if not words:
            (TOP / path).write_text(text)
    return 1 if words and stale else 0


if __name__ == "__main__":
    sys.exit(main(sys.argv[1:]))
