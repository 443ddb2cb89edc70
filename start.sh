# Starts a program of this repository: the proved one where it stands, else the same sources compiled with checks and unproved, which
# are kept. To be sourced where `top` is a path of the repository's folder; then `start CRATE WORDS..` becomes the program with these
# words.
#
# Statuses of its own: 69 where rt is not on the path, 70 where the sources can't be compiled, 73 where the program can't be kept. All
# others are the program's. A check that fails ends it by SIGILL.

. "$top/gate/answer.sh"
proves='./prove builds the proved program'

# The folders of the sources that a program is made of, in one line: its own crate's and those of what crates.txt says that it
# uses, one through another. Definitions and proofs change no program: `./test` looks at them.
sources_of() {
    awk -F: -v program="$1" '
        { uses[$1] = $2 }
        END {
            made[program] = 1
            do {
                more = 0
                for (crate in made) {
                    n = split(uses[crate], used, " ")
                    for (i = 1; i <= n; i++) if (used[i] in uses && !(used[i] in made)) { made[used[i]] = 1; more = 1 }
                }
            } while (more)
            for (crate in made) printf "%s/src ", crate
            print ""
        }' "$top/crates.txt"
}

# Where the program stands, the proved one or that of the folder unproved/, and beside it what was looked at when it was last newer than all
# sources.
stands_at() {
    program=$1/crates/$crate/out/$2$crate
    kept=$1/crates/$crate/out/$2looked_at
}

# Whether nothing changed since is_newest last looked at all sources: by the shell alone, since `find` takes longer than a short run.
is_unchanged() {
    [ -x "$program" ] && [ -f "$kept" ] || return 1
    is_newer=
    # shellcheck disable=SC1090 # made by tests_of
    . "$kept"
    [ -z "$is_newer" ]
}

# Whether the program stands, and is newer than each source of its crates. What was looked at is kept: the next start has only to
# test that no file is newer than the program, and no folder newer than what was kept, since a file was made there or taken away then.
is_newest() {
    [ -x "$program" ] || return 1
    sources=$(sources_of "$crate")
    made=$kept.$$
    tests_of 2>/dev/null >"$made" || made=
    # shellcheck disable=SC2086 # a word for each folder
    newer=$(cd "$top/crates" && exec find ../crates.txt $sources -type f -newer "$program" -print -quit)
    [ -n "$newer" ] || [ -z "$made" ] || mv "$made" "$kept"
    rm -f "$kept.$$"
    [ -z "$newer" ]
}

# Prints what sets is_newer where a source changed, for the shell.
tests_of() {
    echo 'if'
    tests_for d kept && tests_for f program && echo 'false; then is_newer=yes; fi'
}

# Prints a test for each folder or file among the sources: whether it is newer than a file. A name that is not plain is taken for newer.
tests_for() {
    # shellcheck disable=SC2016,SC2086 # a word for each folder; what is printed is the shell's to read
    (cd "$top/crates" && exec find ../crates.txt $sources -type "$1") |
        sed 's:^[A-Za-z0-9_./-]*$:[ "$top/crates/&" -nt "$'"$2"'" ] ||:; t; s/.*/true ||/'
}

# Says one line.
says() {
    printf '%s: %s\n' "$name" "$1" >&2
}

# Says one line, and ends with a status.
ends() {
    says "$2"
    exit "$1"
}

# Becomes the program compiled with checks, of the sources as they stand. It is compiled once, in some minutes, and kept.
unproved() {
    stands_at "$top" unproved/
    told='compiled with checks'
    if is_unchanged || is_newest; then
        says "not proved yet: $told; $proves"
    else
        command -v rt >/dev/null || ends 69 'rt (the Rattle toolchain) is not on the path'
        says "not proved yet: $told, which takes some minutes once; $proves"
        python3 -B "$top/gate/unproved.py" "$crate" || ends $? 'the sources were not compiled'
    fi
    becomes_program "$@"
}

# Becomes the program. A dialogue at a terminal gets lines back by the arrow keys, where rlwrap is on the path; it keeps none of them.
becomes_program() {
    if [ "${1-}" = try ] && [ -t 0 ] && [ -t 1 ] && command -v rlwrap >/dev/null; then
        exec rlwrap -s -1000 "$program" "$@"
    fi
    exec "$program" "$@"
}

# Prints what the program answers to a call for help, as a case stores it, which the gate compares.
stored_help() {
    if [ "$1" = help ]; then shift && set -- "$@" --help; fi
    typed="$name $*"
    case $typed in *" -h") typed="${typed% -h} --help" ;; esac
    awk -v "typed=$typed" '
        FNR == 1 { is_typed = is_read = 0 }
        /^== / {
            is_shown = is_typed && $2 == "output"
            is_found = is_found || is_shown
            is_read = $2 == "words"
            is_typed = 0
            next
        }
        is_read { is_typed = $0 == typed; is_read = 0 }
        is_shown
        END { exit !is_found }' "$top/cases/words/"*.case
}

# Answers a call for help and ends: by the program where it stands, else by what is stored, since nothing is proved for it.
help() {
    if [ -x "$program" ]; then said=$("$program" "$@") || exit; else said=$(stored_help "$@") || return 0; fi
    printf '%s\n' "$said" | wrapped
    exit 0
}

start() {
    crate=$1
    name=$crate
    case $crate in *_*) name=${crate%%_*}-${crate#*_} ;; esac
    shift
    stands_at "$top" ''
    if asks_for_help "$@" && { [ -t 1 ] || [ ! -x "$program" ]; }; then help "$@"; fi
    if is_unchanged; then becomes_program "$@"; fi
    case $top in /*) ;; *) top=$PWD/$top ;; esac
    stands_at "$top" ''
    if is_newest; then becomes_program "$@"; fi
    case "$*" in --version | -V) printf '%s %s\n' "$name" "$(cat "$top/VERSION")" && exit 0 ;; esac
    unproved "$@"
}
