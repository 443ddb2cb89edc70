"""Man pages and completions of the programs, made from what their --help prints: what is asked of a program stands once."""
import re
import subprocess

HEADINGS = ("Commands:", "Arguments:", "Options:")

# What a program is for, beside what its help says in a line.
DESCRIPTIONS = {
    "histar": "A script is calls of threads on one kernel, which decides by labels which thread may read and write what. A refused call changes nothing. What histar show shows is a dump, which histar run, confine, or a program over the library writes of its calls.",
    "histar-audit": "A dump is what histar run, confine, or a program over the library writes of its calls. It is clean where each answer in it is that of the rules.",
    "confine": "What the program reads of a secret it can write to that secret's reports and nowhere else. It needs Linux 6.2 or later, and no privileges.",
    "histar-cluster": "Each machine has a replica of one kernel, and the log of an etcd is their journal. CONFIG is a file in TOML, which names cluster, members, pages, and for run the node; --help shows all of it.",
}

# How each may end. The cases are those of docs/PROGRAMS.md and docs/CONFINE.md.
FAILED = {3: "a file can't be read or written", 4: "out of memory"}
STATUSES = {
    "histar": {0: "done; a refused call is no failure", 1: "the script has a fault, check has found something, or what is to be shown needs a clean dump", 2: "wrong arguments, or no dump, no names or no call at the line to show", **FAILED},
    "histar-audit": {0: "the dump is clean", 1: "a line is false", 2: "the file is no dump, or wrong arguments", **FAILED},
    "histar-cluster": {0: "done", 1: "refused, or the cluster is not well", 2: "wrong arguments", 66: "a file can't be read", 69: "etcd does not do it", 74: "nothing can be written", 78: "the configuration is wrong, or a port is in use"},
    "confine": {"N": "the program's own status, or 0 once a secret was read", 2: "wrong arguments", 69: "this machine lacks something; nothing was started", 70: "something failed"},
}
EXAMPLES = {
    "histar-cluster": (("See how a cluster is", "histar-cluster status operator.toml"), ("Keep its state", "histar-cluster export operator.toml > files.state")),
    "histar": (("Play a script and keep what happened", "histar run {documents}/examples/first.histar --dump first.dump"), ("Ask the kernel call by call", "histar try"), ("See why the call of a line was refused", "histar show why first.dump 12"), ("Write a page that steps through a run", "histar show page first.dump --out first.html")),
    "histar-audit": (("Check each answer of a run", "histar-audit first.dump"), ("See what object 4 can have reached outside of category 1", "histar-audit first.dump --from 4 --category 1")),
    "confine": (("Search your documents by a program that can't send them on", "confine --secret Documents --report found -- sh -c 'grep -rl EICAR Documents > found'"),),
}


class Help:
    """What a command's help says: what it does, how it is used, and its commands, arguments and options, each with its words."""

    def __init__(self, program, words):
        self.program, self.words = program, words
        said = subprocess.run([program, *words, "--help"], check=True, stdout=subprocess.PIPE, text=True).stdout
        self.about, _, rest = said.partition("Usage: ")
        self.usage, _, rest = rest.partition("\n")
        self.parts = {heading: rows_in(rest, heading) for heading in HEADINGS}

    def commands(self):
        return [it for it, _ in self.parts["Commands:"] if it != "help"]

    def options(self):
        return re.findall(r"--[\w-]+", " ".join(it for it, _ in self.parts["Options:"]))


def rows_in(said, heading):
    """The rows of a part: what is typed, and what it is for, which may stand on several lines."""
    part = re.search(rf"^{heading}\n((?: .*\n?|\n(?= ))*)", said, re.M)
    rows = []
    for line in part[1].splitlines() if part else ():
        if re.match(r" {2,6}[-<\[\w]", line):
            name, _, what = line.strip().partition("  ")
            rows.append((name, what.strip()))
        elif rows and line.strip():
            rows[-1] = (rows[-1][0], f"{rows[-1][1]} {line.strip()}".strip())
    return rows


def helps(name, program):
    """The help of a program and of each of its commands, with the words that lead there."""
    top = Help(program, [])
    found, left = [top], [[it] for it in top.commands()]
    while left:
        words = left.pop(0)
        found.append(Help(program, words))
        left += [[*words, it] for it in found[-1].commands()]
    return found


def escaped(text):
    """A text as troff has it, with plain signs where troff would make others of them. A path may go on in the next line."""
    for sign, written in (("\\", r"\e"), ("-", r"\-"), ("'", r"\(aq"), ("~", r"\(ti"), ("/", r"/\:")):
        text = text.replace(sign, written)
    return text


def whole(text):
    """A text whose words stay on one line."""
    return escaped(text).replace(" ", r"\ ")


def usage(it):
    """How a command is used: what goes together stands on one line."""
    return " ".join(map(whole, re.findall(r"\[[^]]*\][.]*|--\S+ <\S+|\S+", it.usage)))


def rows(found, leaves_out=()):
    """The arguments and options of a command, each with what it is for."""
    for typed, what in [*found.parts["Arguments:"], *found.parts["Options:"]]:
        if typed not in leaves_out:
            yield from (".TP", f".B {whole(typed)}", escaped(what))


def synopsis(found):
    """How the program is used; by each of its commands, where it has any."""
    for it in found[1:] or found:
        yield from (".HP 8", f".B {usage(it)}")


def commands(found):
    """Each command with its arguments and options."""
    for it in found[1:]:
        yield from (f".SS {usage(it)}", f"{escaped(' '.join(it.about.split()))}.", *rows(it, ("-h, --help",)))


def statuses(name):
    for status, case in STATUSES[name].items():
        yield from (".TP", f".B {status}", escaped(case))


def examples(name, documents):
    for what, command in EXAMPLES[name]:
        yield from (".PP", f"{escaped(what)}:", ".PP", ".RS 4", escaped(command.format(documents=documents)), ".RE")


def manual(name, version, date, found, documents):
    """The man page of a program, of section 1. Documents are in a folder."""
    about = " ".join(found[0].about.split())
    lines = [f'.TH {name.upper()} 1 "{date}" "{version}" "User Commands"', ".ad l", ".nh"]
    lines += [".SH NAME", f"{name} \\- {escaped(about[:1].lower() + about[1:])}", ".SH SYNOPSIS", *synopsis(found)]
    lines += [".SH DESCRIPTION", escaped(DESCRIPTIONS[name])]
    lines += [".SH COMMANDS", *commands(found)] if found[1:] else []
    lines += [".SH OPTIONS", *rows(found[0]), ".SH EXIT STATUS", *statuses(name), ".SH EXAMPLES", *examples(name, documents)]
    others = ", ".join(f".BR {escaped(it)} (1)" for it in sorted(STATUSES) if it != name).replace(", ", " ,\n")
    return "\n".join([*lines, ".SH SEE ALSO", others, ".PP", f"The documents in {escaped(documents)}/."]) + "\n"


def cases(found, variable):
    """What may come behind the words typed so far, as cases of a shell: the commands and options."""
    return "".join(f'            "{" ".join(it.words)}") {variable}="{" ".join([*it.commands(), *it.options()])}" ;;\n' for it in reversed(found))


def depth(found):
    return max(len(it.words) for it in found)


def bash(name, found):
    """Completion for bash: the commands and options that may come, and files."""
    function = f"_{name.replace('-', '_')}"
    return f"""# Completion of {name} for bash
{function}() {{
    local words="" typed="" word
    for word in "${{COMP_WORDS[@]:1:COMP_CWORD-1}}"; do
        case $word in -*) ;; *) typed="${{typed:+$typed }}$word" ;; esac
        [ "$(wc -w <<<"$typed")" -lt {depth(found)} ] || break
    done
    while :; do
        case $typed in
{cases(found, "words")}        esac
        [ -n "$words" ] || [ -z "$typed" ] && break
        case $typed in *" "*) typed=${{typed% *}} ;; *) typed="" ;; esac
    done
    mapfile -t COMPREPLY < <(compgen -W "$words" -- "${{COMP_WORDS[COMP_CWORD]}}")
}}
complete -o default -F {function} {name}
"""


def zsh(name, found):
    """Completion for zsh: the same."""
    return f"""#compdef {name}
# Completion of {name} for zsh
local found="" typed="${{(j: :)${{(@)${{(@)words[2,CURRENT-1]:#-*}}[1,{depth(found)}]}}}}"
while :; do
    case $typed in
{cases(found, "found").replace("            ", "        ")}    esac
    [[ -n $found || -z $typed ]] && break
    case $typed in *" "*) typed=${{typed% *}} ;; *) typed="" ;; esac
done
compadd -- ${{(s: :)found}}
_files
"""


def fish(name, found):
    """Completion for fish."""
    lines = [f"# Completion of {name} for fish"]
    for it in found:
        seen = f"__fish_seen_subcommand_from {it.words[-1]}" if it.words else "__fish_use_subcommand"
        lines += [f"complete -c {name} -n '{seen}' -a '{command}'" for command in it.commands()]
        lines += [f"complete -c {name} -n '{seen}' -l {option[2:]}" for option in it.options()]
    return "\n".join(lines) + "\n"
