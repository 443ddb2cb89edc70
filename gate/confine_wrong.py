"""Wrong confines: one whose filter lets one system call more through, for each that a scene asks for by its number, and one with a line
changed, for each edit of bindings/confine/wrong, which names the scene. The scene has to notice it. Alone: python3 -m gate.confine_wrong"""
import glob
import os
import re
import shutil
import subprocess
import sys
import tempfile

from gate.confine_attacks import MEANS
from gate.plays import text
from gate.report import Report

SOURCES = "bindings/confine"
LISTED = 'static const char *const FILES[] = {'
EDIT = re.compile(r"file: (\S+)\nold: (.*)\nnew: (.*)\nscene: (.*)\n")


def numbers():
    """The names of system calls by their numbers."""
    words = ["cc", "-E", "-dM", "-include", "asm/unistd_64.h", "-x", "c", "/dev/null"]
    said = subprocess.run(words, stdout=subprocess.PIPE, text=True, check=True).stdout
    return {int(number): name for name, number in re.findall(r"#define __NR_(\w+) (\d+)$", said, re.M)}


def asked(scene):
    """The number of the call that a scene asks for."""
    return int(re.search(r"\$r=syscall\((\d+)", scene.program)[1])


class Wrong:
    """The sources in a folder, where a line may be changed, and what was compiled of them."""

    def __init__(self, library, room):
        self.library = os.path.realpath(library)
        self.top = f"{room}/tree"
        # (what did not change is compiled once, where the machine has ccache)
        self.env = {**os.environ, "HISTAR_LIB": self.library, "PATH": f"/usr/lib/ccache:{os.environ['PATH']}", "CCACHE_DIR": f"{room}/ccache"}
        for it in (SOURCES, "include", "gate"):
            shutil.copytree(it, f"{self.top}/{it}", ignore=shutil.ignore_patterns("__pycache__"))

    def changed(self, file, old, new):
        """Where the program stands that is built with a text in place of another, which stands there once; None where there is none."""
        place = f"{self.top}/{SOURCES}/{file}"
        right = text(place)
        if right.count(old) != 1:
            return None
        try:
            with open(place, "w", encoding="utf-8") as it:
                it.write(right.replace(old, new))
            done = subprocess.run([f"{self.top}/{SOURCES}/build.sh"], env=self.env, stdout=subprocess.PIPE, stderr=subprocess.STDOUT)
            return f"{self.top}/out/confine" if done.returncode == 0 else None
        finally:
            with open(place, "w", encoding="utf-8") as it:
                it.write(right)

    def filters(self):
        """For each call that a scene asks for the scenes that do, and its name."""
        names, found = numbers(), {}
        for scene in MEANS:
            found.setdefault(asked(scene), []).append(scene)
        for number, scenes in sorted(found.items()):
            yield names[number], scenes


def notices(play, confine, room, scenes, users):
    """Whether one of the scenes goes wrong by this confine, as one of these users."""
    return any(play(confine, room, scene, user, by).wrong() for user, by in users for scene in scenes if min(user, 1) in scene.users)


def try_all(report, library, room, tools):
    """Whether each wrong confine is noticed: `tools` are how a scene is played, all scenes by name, and as whom."""
    play, scenes, users = tools
    wrong, missed, count = Wrong(library, room), [], 0
    for name, asking in wrong.filters():
        confine = wrong.changed("filter/make.c", LISTED, f'{LISTED}"{name}", ')
        count += 1
        if not confine or not notices(play, confine, f"{room}/scene", asking, users):
            missed.append(name if confine else f"{name} (it is not built)")
    report.counts(not missed, f"confine: scenes notice {count} calls that the filter lets through" + "".join(f", but not {it}" for it in missed))
    for edit in sorted(glob.glob(f"{SOURCES}/wrong/*.edit")):
        file, old, new, name = EDIT.fullmatch(text(edit)).groups()
        confine = wrong.changed(file, old, new)
        is_noticed = bool(confine) and name in scenes and notices(play, confine, f"{room}/scene", [scenes[name]], users)
        report.counts(is_noticed, f"confine: {os.path.basename(edit)} is noticed by a scene" + ("" if confine else ": it is not built"))


def main():
    from gate import confine
    whole = Report()
    with tempfile.TemporaryDirectory(prefix="confine-", dir="/var/tmp") as room:
        confine.try_wrong(whole, "out/lib", room, confine.Tried(room).scenes(whole, False))
    return whole.finish()


if __name__ == "__main__":
    sys.exit(main())
