"""Pages and colours: what `./histar show page` writes, against what `tree` and `why` print and the auditor traces of the same dump; its
script in headless Chromium, where that is there; and `tree` in colours, on a terminal too.

python3 -m gate.pages    draws the pictures of a page anew"""
import glob
import html
import json
import os
import pty
import random
import re
import shutil
import subprocess
import sys
import tempfile

from gate.plays import ran, text
from gate.scripts import script

SEED = 6
EVENTS = 1000
MOST = 2_000_000  # bytes of a page of so many events
FLOWS = ("examples/dumps/objects.dump", "4", "7")
DATA = re.compile(r"<script type='application/json' id='data'>([^<]*)</script>")
ESCAPE = re.compile(r"\x1b\[[0-9]*m")
# what the page's script is sent, after it has begun
KEYS = "<script>for (const key of ['e', 'ArrowLeft', 'ArrowLeft', 'ArrowRight', 'ArrowDown', 'End']) document.dispatchEvent(new KeyboardEvent('keydown', { key }));</script>"
# and with a modifier, which it leaves to the browser; and to the first refused step, from the beginning
HELD = "<script>for (const key of ['e', 'ArrowLeft']) document.dispatchEvent(new KeyboardEvent('keydown', { key, ctrlKey: key !== 'e' }));</script>"
REFUSED = "<script>for (const key of ['g', 'n']) document.dispatchEvent(new KeyboardEvent('keydown', { key }));</script>"
LEAK = "examples/dumps/leak.dump"
READS = "examples/dumps/read_again.dump"
# What the pictures of docs/ show, and how wide: on a desk and on a telephone.
SHOWN = ("examples/dumps/scanner.dump", "--from", "4", "--category", "1")
PICTURES = {"docs/page.png": "1280,560", "docs/page_narrow.png": "390,844"}


def page_of(dump, file, *words):
    """The page of a dump, None where there is none."""
    status, _ = ran("./histar", "show", "page", dump, "--out", file, *words)
    return text(file) if status == 0 else None


def data_of(page):
    """What stands in a page as data, None where it is no one piece without `<`."""
    found = DATA.findall(page)
    return json.loads(found[0]) if len(found) == 1 else None


def patched(lines, edits):
    """The lines of a tree after edits, and those that are marked as changed."""
    left, made, marked = list(lines), [], []
    for keep, gone, *put in edits:
        made += left[:keep] + [it["text"] for it in put]
        marked += [it["text"] for it in put if it["new"]]
        left = left[keep + gone:]
    return made, marked


def trees_of(data):
    """The text of each tree of a page, and whether the right lines are marked: those that the tree before did not have."""
    lines, trees, is_marked = [], [], True
    for step in data["steps"]:
        after, marked = patched(lines, step["edits"])
        is_marked = is_marked and marked == [it for it in after if it not in lines]
        lines = after
        trees.append("".join(f"{it}\n" for it in lines))
    return trees, is_marked


def told_lines(dump):
    """The lines of a dump that tell calls and reads, each with its number."""
    return [(at, it) for at, it in enumerate(text(dump).split("\n"), 1) if it.startswith(("event ", "batch ", "call ", "read "))]


def places_of(dump):
    """Where the steps of a dump's page stand: after how many events, and which of the reads after them it is, 0 of an event."""
    places = [(0, 0)]
    for _, line in told_lines(dump):
        events, reads = places[-1]
        if not line.startswith("call "):
            places.append((events, reads + 1) if line.startswith("read ") else (events + 1, 0))
    return places


def number_of(place):
    """How the address of a page names a step."""
    return ".".join(map(str, place)) if place[1] else str(place[0])


def why_of(dump, number, line):
    """What `why` prints of a call or a read that the rules refuse, and nothing of any other."""
    if line.startswith("batch "):
        return ""
    _, why = ran("./histar", "show", "why", dump, str(number))
    return why if why.split("\n")[1].startswith("the rules answer: refused ") else ""


def compare(report, dump, name, data, some):
    """Each step, or some, and each line that tells a call or a read with its reason, or some, against what the other words print."""
    trees, is_marked = trees_of(data)
    places = places_of(dump)
    is_placed = [it["read"] for it in data["steps"]] == [reads > 0 for _, reads in places]
    wrong = [at for at in some(range(len(places))) if at >= len(trees) or trees[at] != ran("./histar", "show", "tree", dump, "--after", str(places[at][0]))[1]]
    reads = sum(it["read"] for it in data["steps"])
    report.counts(is_placed and not wrong and is_marked, f"{name}: {len(trees)} trees as `tree` prints them, {reads} of reads, changed lines marked {wrong[:3]}")
    told = [it for step in data["steps"] for it in step["told"]]
    lines = told_lines(dump)
    is_told = [it["line"] for it in told] == [line for _, line in lines]
    wrong = [at for at in some(range(len(lines))) if is_told and told[at]["why"] != why_of(dump, *lines[at])]
    refused = sum(bool(it["why"]) for it in told)
    report.counts(is_told and not wrong, f"{name}: {len(told)} lines of calls and reads, {refused} of them refused as `why` tells {wrong[:3]}")


def compare_stored(report, room):
    for dump in sorted(glob.glob("examples/dumps/*.dump")):
        if ran("./histar", "show", "tree", dump)[0] != 0:
            continue
        page = page_of(dump, f"{room}/page.html")
        data = page and data_of(page)
        if data is None:
            report.fails(f"{dump}: no page")
            continue
        compare(report, dump, dump, data, list)


def long_dump(room):
    """A dump of many events and the reads among them, the first of a drawn run."""
    with open(f"{room}/script", "w", encoding="utf-8") as it:
        it.write(script(SEED, phases=EVENTS // 3))
    subprocess.run(["./histar", "run", f"{room}/script", "--dump", f"{room}/whole"], check=True, stdout=subprocess.DEVNULL)
    kept, count = [], 0
    for line in text(f"{room}/whole").split("\n"):
        count += line.startswith(("event ", "batch "))
        if count > EVENTS or line.split(" ")[0] in ("live", "end"):
            break
        kept.append(f"{line}\n")
    with open(f"{room}/long", "w", encoding="utf-8") as it:
        it.write("".join([*kept, "end\n"]))
    return f"{room}/long", min(count, EVENTS)


def compare_long(report, room):
    dump, count = long_dump(room)
    page = page_of(dump, f"{room}/page.html") or ""
    report.counts(count == EVENTS and 0 < len(page) <= MOST, f"a page of {count} events has {len(page)} bytes, at most {MOST}")
    data = data_of(page)
    if data is not None:
        draw = random.Random(SEED)
        compare(report, dump, f"a dump of {count} events", data, lambda all_of: sorted(draw.sample(all_of, 30)))


def compare_flows(report, room):
    """What flows reach is as the auditor tells it, and marked on the lines of these objects alone."""
    dump, start, category = FLOWS
    data = data_of(page_of(dump, f"{room}/page.html", "--from", start, "--category", category) or "")
    reached = [f"#{it}" for it in re.findall(r"^reaches (\d+)$", ran("./histar-audit", dump, "--from", start, "--category", category)[1], re.M)]
    is_well = bool(reached) and data is not None and data["flow"] == {"from": f"#{start}", "category": f"#{category}", "reached": reached}
    lines = [it for step in data["steps"] for edit in step["edits"] for it in edit[2:]] if is_well else []
    is_well = is_well and all(it["reached"] == (it["text"].split()[0] in reached) for it in lines)
    report.counts(is_well, f"flows from {start} outside category {category} on a page: {reached}, {sum(it['reached'] for it in lines)} lines marked")


def dom(file, fragment=""):
    """What Chromium's document of a page is, once its script has run."""
    with tempfile.TemporaryDirectory(prefix="browser-") as home:
        words = ["chromium", "--headless", "--no-sandbox", "--disable-gpu", f"--user-data-dir={home}", "--dump-dom", f"file://{os.path.abspath(file)}{fragment}"]
        return subprocess.run(words, stdout=subprocess.PIPE, stderr=subprocess.DEVNULL, text=True, timeout=120).stdout


def tree_in(document):
    """The text of the tree in a document."""
    found = re.search(r'<pre id="tree">(.*?)</pre>', document, re.S)
    return html.unescape(re.sub(r"<[^>]*>", "", found.group(1))) if found else None


def first_refused(dump):
    """The place of the first event or read that the rules refuse; none where they refuse none."""
    at, places = 0, places_of(dump)
    for number, line in told_lines(dump):
        at += not line.startswith("call ")
        if why_of(dump, number, line):
            return places[at]
    return None


def browse_dump(report, room, dump, *words):
    """The script shows the step that the address names; by itself the first refused one, or the last; and others by keys."""
    page = page_of(dump, f"{room}/page.html", *words) or ""
    places = places_of(dump)
    opened = first_refused(dump) or places[-1]
    for name, typed in (("keys", KEYS), ("held", HELD), ("refused", REFUSED)):
        with open(f"{room}/{name}.html", "w", encoding="utf-8") as it:
            it.write(page.replace("</body>", f"{typed}</body>"))
    cases = [("page", "", opened), ("page", "#99", places[-1]), ("keys", "", places[-2]), ("held", "", places[-1])]
    cases += [("refused", "", first_refused(dump) or (0, 0)), *(("page", f"#{number_of(it)}", it) for it in places if it[1] or it == (3, 0))]
    for file, fragment, place in cases:
        document = dom(f"{room}/{file}.html", fragment)
        is_shown = tree_in(document) == ran("./histar", "show", "tree", dump, "--after", str(place[0]))[1]
        is_named = f'aria-current="true">{number_of(place)} ' in document or place == (0, 0)
        report.counts(is_shown and is_named, f"{dump}, {file}.html{fragment} in Chromium: {'the' if is_shown and is_named else 'not the'} step {number_of(place)}")


def browse(report, room):
    if shutil.which("chromium") is None:
        report.say("Chromium is not there: the script of a page was left out")
        return
    browse_dump(report, room, FLOWS[0], "--from", FLOWS[1], "--category", FLOWS[2])
    browse_dump(report, room, LEAK)
    browse_dump(report, room, READS)


def on_terminal(*words, **environment):
    """What a command writes to a terminal of 20 columns."""
    ours, theirs = pty.openpty()
    inner = ["sh", "-c", 'stty cols 20 <&1; exec "$@"', "sh", *words]
    kept = {name: value for name, value in os.environ.items() if name != "NO_COLOR"}
    done = subprocess.Popen(inner, stdin=subprocess.DEVNULL, stdout=theirs, stderr=subprocess.DEVNULL, env={**kept, **environment})
    os.close(theirs)
    said = b""
    try:
        while more := os.read(ours, 4096):
            said += more
    except OSError:  # the terminal is closed
        pass
    os.close(ours)
    done.wait()
    return said.decode().replace("\r\n", "\n")


def colour(report):
    """`tree` in colours is the plain tree beside its escape sequences. `auto` asks the terminal and NO_COLOR."""
    words = ("./histar", "show", "tree", FLOWS[0])
    plain = ran(*words)[1]
    coloured = ran(*words, "--color", "always")[1]
    report.counts(coloured != plain == ESCAPE.sub("", coloured) and "\x1b" not in plain, "tree --color always is the plain tree, with colours")
    for name, said, wanted in (
        ("--color never", ran(*words, "--color", "never")[1], plain),
        ("--color auto, no terminal", ran(*words, "--color=auto")[1], plain),
        ("a terminal", on_terminal(*words), coloured),
        ("a terminal, --color auto", on_terminal(*words, "--color", "auto"), coloured),
        ("a terminal, --color=never", on_terminal(*words, "--color=never"), plain),
        ("a terminal, NO_COLOR", on_terminal(*words, NO_COLOR="1"), plain),
        ("a terminal, NO_COLOR empty", on_terminal(*words, NO_COLOR=""), coloured),
        ("a terminal, NO_COLOR, --color always", on_terminal(*words, "--color", "always", NO_COLOR="1"), coloured),
    ):
        report.counts(said == wanted, f"tree, {name}: {'plain' if said == plain else 'in colours'}")


def show(report):
    with tempfile.TemporaryDirectory(prefix="pages-") as room:
        colour(report)
        compare_stored(report, room)
        compare_flows(report, room)
        compare_long(report, room)
        browse(report, room)


def draw():
    """Draws the pictures of a page anew, by Chromium."""
    with tempfile.TemporaryDirectory(prefix="pages-") as room:
        page = f"{room}/{os.path.basename(SHOWN[0]).replace('.dump', '.html')}"
        if page_of(SHOWN[0], page, *SHOWN[1:]) is None:
            sys.exit(f"pages: {SHOWN[0]} has no page")
        for picture, size in PICTURES.items():
            take(page, picture, size)


def take(page, picture, size):
    """A picture of a page in a window of this size."""
    with tempfile.TemporaryDirectory(prefix="pages-") as home:
        browser = ["chromium", "--headless", "--no-sandbox", "--disable-gpu", f"--user-data-dir={home}", f"--window-size={size}"]
        subprocess.run([*browser, f"--screenshot={os.path.abspath(picture)}", f"file://{page}"], check=True, stderr=subprocess.DEVNULL)


if __name__ == "__main__":
    draw()
