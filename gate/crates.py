"""Some crates alone: checked over what earlier checks kept."""
import os
import subprocess


def ran(report, name, *words):
    """Runs rt in a crate's folder, shows what it says where that failed, and returns whether it went well."""
    how = {"cwd": f"crates/{name}", "stdin": subprocess.DEVNULL, "stdout": subprocess.PIPE, "stderr": subprocess.STDOUT, "text": True}
    done = subprocess.run(["rt", *words], errors="replace", **how)
    if done.returncode:
        report.say(done.stdout[-4000:])
    report.counts(done.returncode == 0, f"{name}: rt {' '.join(words)}")
    return done.returncode == 0


def check(report, names):
    for name in names:
        if not os.path.isdir(f"crates/{name}/src"):
            report.fails(f"{name}: there is no such crate, nor such a word of ./test: see ./test --help")
        else:
            ran(report, name, "check")
