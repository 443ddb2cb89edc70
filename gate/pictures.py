"""The pictures of docs/, which `./histar show dot` and Graphviz draw. Where Graphviz is there, `./test` draws each anew, and compares what
stands in it: each node, cluster and arrow with its text and colour. Where these lie on the picture is Graphviz's own, and differs from
version to version.

python3 -m gate.pictures    draws all pictures anew"""
import re
import shutil
import subprocess
import sys

from gate.plays import ran, text

PICTURES = {
    "docs/objects.svg": ("examples/dumps/objects.dump", "--names", "examples/dumps/objects.names"),
    "docs/flows.svg": ("examples/dumps/scanner.dump", "--from", "4", "--category", "1", "--names", "examples/dumps/scanner.names"),
}
PART = re.compile(r'<g id="[^"]*" class="(node|edge|cluster)">\s*<title>(.*?)</title>(.*?)</g>', re.S)


def drawn(words):
    """The picture of what `./histar show dot` prints with these words. None where it prints no graph."""
    status, graph = ran("./histar", "show", "dot", *words)
    if status != 0:
        return None
    return subprocess.run(["dot", "-Tsvg"], input=graph, capture_output=True, text=True, check=True).stdout


def parts(picture):
    """What stands in a picture: its nodes, clusters and arrows, each with its texts and colours."""
    return sorted(
        (kind, title, tuple(re.findall(r"<text[^>]*>(.*?)</text>", body)), tuple(sorted(set(re.findall(r'stroke="(\w+)"', body)))))
        for kind, title, body in PART.findall(picture)
    )


def compare(report):
    """Draws each picture anew where Graphviz is there. A picture without parts fails."""
    if shutil.which("dot") is None:
        report.say("Graphviz is not there: no picture was drawn")
        return
    for file, words in PICTURES.items():
        stored = parts(text(file))
        report.counts(bool(stored), f"{file} has {len(stored)} parts")
        picture = drawn(words)
        is_same = picture is not None and parts(picture) == stored
        report.counts(is_same, f"{file}: {'as' if is_same else 'not as'} ./histar show dot {' '.join(words)} draws it")


def main():
    for file, words in PICTURES.items():
        picture = drawn(words)
        if picture is None:
            sys.exit(f"pictures: ./histar show dot {' '.join(words)} prints no graph")
        with open(file, "w", encoding="utf-8") as it:
            it.write(picture)


if __name__ == "__main__":
    main()
