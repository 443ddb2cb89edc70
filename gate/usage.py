"""What a script prints of itself: how it is used, and its version."""
import os
import subprocess
import sys

from gate import versions

WRAP = "gate/wrap.awk"


def told(doc, to):
    """Prints a text, wrapped where it goes to a terminal."""
    to.flush()
    if to.isatty():
        subprocess.run(["awk", "-v", f"width={os.get_terminal_size(to.fileno()).columns}", "-f", WRAP], input=f"{doc}\n", stdout=to, text=True, check=False)
    else:
        print(doc, file=to)


def answer(name, doc):
    """Ends a script that is asked for help or for its version alone."""
    if sys.argv[1:] in (["--version"], ["-V"]):
        print(f"{name} {versions.read()}")
        sys.exit(0)
    if sys.argv[1:] in (["--help"], ["-h"]):
        told(doc, sys.stdout)
        sys.exit(0)


def refuse(doc):
    """Ends a script that is called as it can't be."""
    told(doc, sys.stderr)
    sys.exit(2)
