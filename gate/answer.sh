# What is answered to a call for help or for its version. To be sourced where `top` is a path of the folder that has this one as `gate`.

# Prints its input, wrapped where a terminal reads it.
wrapped() {
    size=
    [ ! -t 1 ] || { size=$(stty size <&3 2>/dev/null) || size=; } 3>&1
    awk -v "width=${size##* }" -f "$top/gate/wrap.awk"
}

# Whether these words ask a program for help.
asks_for_help() {
    case " $* " in
        *" -- "*) return 1 ;;
        " help "* | *" --help " | *" -h ") ;;
        *) return 1 ;;
    esac
}

# Ends a script that is asked for help, which is the comment at its head, or for its version; or that has an option which there is not.
answer() {
    script=${0##*/}
    case ${1-} in
        --help | -h) sed -n '2,${/^#/!q; s/^# \{0,1\}//p;}' "$0" | wrapped ;;
        --version | -V) echo "$script $(cat "$top/VERSION")" ;;
        -*) echo "$script: no option $1: see --help" >&2 && exit 2 ;;
        *) return 0 ;;
    esac
    exit 0
}
