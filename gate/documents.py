"""What the documents say that a command prints, against what it prints: in these documents a line `$ COMMAND` of a block has the
command's whole output below it, and a line `> LINE` there is one that the command reads. And how many words the documents have,
and the version, against what each place says."""
import difflib
import glob
import os
import re
import subprocess

from gate import versions
from gate.plays import text

MARGIN = "    "
PROMPT = "> "
TUTORIAL = "docs/TUTORIAL.md"
FILES = ["README.md", TUTORIAL, "docs/PROGRAMS.md"]
# What counts as documents, and how many words they may have. A word has a letter; what a script made is left out.
PAGES = ("README.md", "CONTRIBUTING.md", "CHANGELOG.md", "examples/README.md", "crates/README.md", "docs/*.md")
MOST_WORDS = 31_500
MADE = re.compile(r"<!-- made by .*?<!-- end of what [^>]*-->", re.S)
NAMED = re.compile(r"`(\w+)::([^`\s]*(?: [^`]*)?)`")
LINK = re.compile(r"\]\(([^)#:\s]*)(?:#([^)\s]*))?\)")


def commands_in(document):
    """The commands of a document, each with the output that stands below it."""
    found = []
    is_inside = False
    for line in document.split("\n"):
        if line.startswith(f"{MARGIN}$ "):
            found.append((line.removeprefix(f"{MARGIN}$ "), []))
            is_inside = True
        elif is_inside and line.startswith(MARGIN):
            found[-1][1].append(line.removeprefix(MARGIN) + "\n")
        else:
            is_inside = False
    return [(command, "".join(lines)) for command, lines in found]


def ran_in(top, command, given):
    """What a command prints in a folder that is given these lines. (What it says beside is not compared.)"""
    how = {"cwd": top, "input": given, "stdout": subprocess.PIPE, "stderr": subprocess.DEVNULL, "text": True, "errors": "replace"}
    return subprocess.run(["sh", "-c", command], **how).stdout


def compare_page(report, file, top="."):
    """Runs each command of a document in a tree. A document without one fails."""
    commands = commands_in(text(file))
    report.counts(bool(commands), f"{file} has {len(commands)} commands")
    os.makedirs(f"{top}/out", exist_ok=True)
    for command, below in commands:
        lines = below.splitlines(keepends=True)
        asked = "".join(it.removeprefix(PROMPT) for it in lines if it.startswith(PROMPT))
        wanted = "".join(it for it in lines if not it.startswith(PROMPT))
        said = ran_in(top, command, asked)
        if said != wanted:
            report.say("\n".join(difflib.unified_diff(wanted.split("\n"), said.split("\n"), file, "printed", lineterm="")))
        report.counts(said == wanted, f"{command}: {'as' if said == wanted else 'not as'} in {file}")


def pages():
    return sorted({it for names in PAGES for it in glob.glob(names)})


def words_in(page):
    return sum(bool(re.search("[A-Za-z]", it)) for it in MADE.sub("", page).split())


def headings_in(page):
    """The anchors of a page's headings."""
    return {re.sub(r"[^\w\- ]", "", it.lower()).replace(" ", "-") for it in re.findall(r"^#+ (.*)$", page, re.M)}


def broken_links(file):
    """The links of a page to files or headings that are not there."""
    for place, heading in LINK.findall(text(file)):
        target = os.path.normpath(os.path.join(os.path.dirname(file), place)) if place else file
        if not os.path.exists(target) or heading and heading not in headings_in(text(target)):
            yield f"{place}#{heading}" if heading else place


def sources():
    """The code of each crate, and of those for Rust."""
    folders = {it.split("/")[1]: f"{it}/src" for it in glob.glob("crates/*") if os.path.isdir(it)}
    found = {name: "\n".join(map(text, sorted(glob.glob(f"{at}/**/*.rt", recursive=True)))) for name, at in folders.items()}
    for name in ("histar", "histar-cluster", "histar-etcd"):
        found[f"{name} (Rust)"] = "\n".join(map(text, sorted(glob.glob(f"bindings/rust/{name}/src/**/*.rs", recursive=True))))
    return found


def is_named(word, code):
    """Whether code declares a name: as an item, a field or a variant."""
    return bool(re.search(rf"\b(?:fn|struct|enum|trait|mod|type|const)\s+{word}\b|^\s+{word}[,({{ ]", code, re.M))


def lost_names(file, crates):
    """The names of a page, `CRATE::NAME`, `CRATE::{NAME, ..}` or the same of a type, that nothing declares."""
    for first, rest in NAMED.findall(text(file)):
        codes = [it for name, it in crates.items() if name.split(" ")[0] == first or re.search(rf"\b(?:struct|enum|trait)\s+{first}\b", it)]
        words = re.findall(r"\w+", rest)
        if (first in crates or first[0].isupper()) and not any(all(is_named(it, code) for it in words) for code in codes):
            yield f"{first}::{rest}"


def compare_names(report):
    """Each name of the code that a page tells is declared there."""
    crates = sources()
    for file in pages():
        lost = list(lost_names(file, crates))
        report.counts(not lost, f"{file}: names that nothing declares: {lost}" if lost else f"{file}: the code has its names")


def compare(report):
    """Runs the commands of the documents, follows their links, looks for their names, and counts their words; and compares versions."""
    versions.compare(report)
    for file in FILES:
        compare_page(report, file)
    for file in pages():
        broken = list(broken_links(file))
        report.counts(not broken, f"{file}: links that lead nowhere: {broken}" if broken else f"{file}: each link leads somewhere")
    compare_names(report)
    count = sum(words_in(text(it)) for it in pages())
    report.counts(count <= MOST_WORDS, f"the documents have {count} words, at most {MOST_WORDS}")
