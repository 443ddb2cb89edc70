"""Definitions and lemmas that nothing cites.

One that stands at the top of its file is cited where its file's other lines name it, where another file imports it by name, or where a path
leads to it. Of what stands in a record or a module of a file any use of its name counts."""
import collections
import glob
import os
import re

# The files whose names the prover itself reads.
READ_BY_PROVER = ("Invariants.antt", "Answers.antt", "Proof.antt")
WORD = re.compile(r"[^\s(){}\[\],.;:@\"]+")
MODIFIERS = ("pub", "abbrev", "unfoldable", "private")
SIGNATURE = re.compile(rf"^( {{0,2}})(?:(?:{'|'.join(MODIFIERS)}) )*([^\s(){{}}\[\],.;:\"]+) : ")
# A path of names: `Rattle.CRATE.specs.FILE.{NAME, ..}`, or `FILE.NAME` and `FILE::NAME` at its end.
IMPORT = re.compile(r"([\w«»+]+)\.\{([^}]*)\}")
PATH = re.compile(r"([\w«»+]+)(?:\.|::)([^\s(){}\[\],.;:@\"]+)")


def files_of(pattern):
    return sorted(glob.glob(pattern, recursive=True))


def all_files():
    return [file for part in ("specs/**/*.antt", "proofs/**/*.antt", "src/**/*.rt") for file in files_of(f"crates/*/{part}")]


def lines_of(file):
    """A file's lines without their comments."""
    with open(file, encoding="utf-8") as it:
        return [line.partition("--" if file.endswith(".antt") else "//")[0] for line in it.read().split("\n")]


def definitions(file):
    """The names that a file of specs/ or proofs/ defines, each with whether it stands at the top."""
    if os.path.basename(file) in READ_BY_PROVER:
        return []
    return [(found[2], not found[1]) for found in map(SIGNATURE.match, lines_of(file)) if found]


def citations_in(file):
    """The words of a file that cite something: neither the name that a line states, nor that of a clause of it."""
    stated = clause = None
    for line in lines_of(file):
        signature = SIGNATURE.match(line)
        words = WORD.findall(line)
        if signature:
            stated = signature[2]
            clause = f"{signature[1]}{stated} "
            yield from words[words.index(stated) + 1 :]
        elif clause and line.startswith(clause):
            yield from words[1:]
        else:
            yield from words


def imports_in(file):
    """What a file names by the file that has it: pairs of that file's name and the name."""
    text = "\n".join(lines_of(file))
    for owner, names in IMPORT.findall(text):
        for name in names.split(","):
            yield owner, name.partition(" as ")[0].strip()
    yield from PATH.findall(text)


def uncited():
    """Each definition that nothing cites, with its file. (An operator is cited by its parts, and isn't looked for.)"""
    files = all_files()
    own = {file: collections.Counter(citations_in(file)) for file in files}
    words = sum(own.values(), collections.Counter())
    imported = {pair for file in files for pair in imports_in(file)}
    for file in files:
        module = os.path.basename(file).partition(".")[0]
        for name, is_top in definitions(file) if file.endswith(".antt") else ():
            is_cited = own[file][name] or (module, name) in imported if is_top else words[name]
            if "◌" not in name and not is_cited:
                yield file, name


def tell(report):
    """Counts whether each definition and lemma is cited, and tells those that aren't."""
    found = list(uncited())
    for file, name in found:
        report.say(f"{file}: nothing cites {name}")
    report.counts(not found, f"definitions and lemmas that nothing cites: {len(found)}")
