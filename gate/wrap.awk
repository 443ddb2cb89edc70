# Wraps each paragraph and each row of a table at `width` columns; without a width nothing is wrapped. A row goes on below its last
# column where 20 columns are left for it, else eight columns in, on lines of its own.

# Prints words behind what stands on a line already, and goes on `begin` columns in.
function put(line, words, begin,    word, count, at, gap) {
    count = split(words, word, / +/)
    gap = ""
    for (at = 1; at <= count; at++) {
        if (gap != "" && length(line gap word[at]) > width) {
            print line
            line = sprintf("%" begin "s", "")
            gap = ""
        }
        line = line gap word[at]
        gap = " "
    }
    print line
}

function end_paragraph() {
    if (paragraph != "") put("", paragraph, 0)
    paragraph = ""
}

!width { print; next }
/^[^ ]/ && !/  / { paragraph = paragraph (paragraph == "" ? "" : " ") $0; next }
{ end_paragraph() }
length($0) <= width { print; next }

{
    match($0, /^ */)
    begin = RLENGTH
    if (!match(substr($0, begin + 1), /[^ ]  +[^ ]/)) {
        put(substr($0, 1, begin), substr($0, begin + 1), begin)
        next
    }
    column = begin + RSTART + RLENGTH - 2
    if (width - column < 20) {
        print substr($0, 1, begin + RSTART)
        put("        ", substr($0, column + 1), 8)
    } else {
        put(substr($0, 1, column), substr($0, column + 1), column)
    }
}

END { end_paragraph() }
