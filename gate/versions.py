"""The version. The file VERSION has it; each other place that tells it is compared with that file."""
import re

# The places: a file, what stands before the version, and in which form.
WHOLE, NUMBER = "whole", "number"
PLACES = (
    ("crates/program_args/src/versions.rt", r'VERSION: &str = "([^"]*)"', WHOLE),
    ("crates/histar_c/src/exports.rt", r"fn histar_version\(\) -> u32\n +ensures { result ≡ (\d+) }", NUMBER),
    ("crates/histar_c/src/exports.rt", r"fn histar_version\(\)[^{]*{[^}]*}\n{\n +(\d+)\n}", NUMBER),
    ("include/histar.h", r'#define HISTAR_VERSION "([^"]*)"', WHOLE),
    ("include/histar.h", r"#define HISTAR_VERSION_NUMBER (\d+)", NUMBER),
    ("bindings/rust/histar/Cargo.toml", r'^version = "([^"]*)"', WHOLE),
    ("bindings/rust/histar-cluster/Cargo.toml", r'^version = "([^"]*)"', WHOLE),
    ("bindings/rust/histar-etcd/Cargo.toml", r'^version = "([^"]*)"', WHOLE),
    ("bindings/rust/histar-serde/Cargo.toml", r'^version = "([^"]*)"', WHOLE),
    ("bindings/python/pyproject.toml", r'^version = "([^"]*)"', WHOLE),
    ("bindings/python/src/histar/__init__.py", r'^__version__ = "([^"]*)"', WHOLE),
    ("CHANGELOG.md", r"^## (\S+)", WHOLE),
)


def read():
    with open("VERSION", encoding="utf-8") as it:
        return it.read().strip()


def number(version):
    """A version as one number, as the library tells it."""
    first, second, third = map(int, version.split("."))
    return str(10_000 * first + 100 * second + third)


def compare(report):
    """Each place that tells the version tells that of the file VERSION."""
    forms = {WHOLE: read(), NUMBER: number(read())}
    for file, pattern, form in PLACES:
        with open(file, encoding="utf-8") as it:
            found = re.search(pattern, it.read(), re.M)
        report.counts(bool(found) and found[1] == forms[form], f"{file} has the version {found[1] if found else 'nowhere'}: VERSION has {forms[form]}")
