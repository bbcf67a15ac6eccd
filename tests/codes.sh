#!/bin/sh
# The header, the manual page, './suspects --help' and the second program have the codes of docs/codes.txt, no others, and its sentences word
# for word. POSIX sh.
set -u
cd "$(dirname "$0")/.." || exit 2
. tests/lib.sh
tab=$(printf '\t')

# agree NAME FILE: the file has a line for each code, number, tab, sentence, in the order of the table
agree() {
    while IFS=$tab read -r number sentence; do
        same "$1, code $number" "$sentence" "$(sed -n "s/^$number$tab//p" "$2")"
    done <"$work/table"
    same "$1, which codes" "$(numbers "$work/table")" "$(numbers "$2")"
}

numbers() {
    cut -f 1 "$1" | tr '\n' ' '
}

# Each reader below prints a line for each code that it finds: number, tab, sentence.

# In the enum a comment stands before each name; a line of it begins with a star.
header_codes() {
    awk -v OFS="$tab" '
        /^enum jarvulpe_code/ { inside = 1; next }
        /^}/ { inside = 0 }
        !inside { next }
        / = [0-9]+,?$/ { sub(/,$/, ""); print $NF, sentence; sentence = ""; next }
        {
            gsub(/^ *(\/\*|\*) | \*\/$/, "")
            sentence = sentence (sentence == "" ? "" : " ") $0
        }' include/jarvulpe.h
}

# Under CODES each code is a paragraph with its number as the tag.
page_codes() {
    awk -v OFS="$tab" '
        /^\.SH/ { inside = $2 == "CODES"; next }
        !inside { next }
        /^\.TP/ { tagged = 1; next }
        tagged == 1 { number = $0; tagged = 2; next }
        tagged == 2 { print number, $0 }' docs/suspects.1
}

# The list stands between two blank lines after the line that begins with Codes; a sentence goes on in indented lines.
help_codes() {
    ./suspects --help | awk -v OFS="$tab" '
        function give() { if (number != "") print number, sentence; number = "" }
        /^Codes/ { begun = 1; next }
        begun && /^$/ { begun++; next }
        begun == 2 && /^  [ 0-9][0-9]  / {
            give()
            number = $1
            sub(/^ +[0-9]+ +/, "")
            sentence = $0
            next
        }
        begun == 2 { sub(/^ +/, ""); sentence = sentence " " $0 }
        END { give() }'
}

# The list of all codes names some by a constant; it has no sentences.
second_codes() {
    tr ',;:=' '    ' <second/src/code.rs | awk '
        $1 == "pub" && $2 == "const" && $4 == "u8" { value[$3] = $5 }
        $3 == "OF_A_QUERY" { inside = 1; next }
        $1 == "]" { inside = 0 }
        inside { print ($1 in value) ? value[$1] : $1 }'
}

grep -v '^#' docs/codes.txt >"$work/table"
same 'docs/codes.txt: lines that are no number, tab and plain sentence' '' \
    "$(grep -v "^[1-9][0-9]*${tab}[A-Z][A-Za-z0-9,.:; ]*\.\$" "$work/table")"
if command -v groff >"$work/said"; then
    same 'docs/suspects.1: warnings' '' "$(groff -man -Tutf8 -ww docs/suspects.1 2>&1 >"$work/said")"
fi
header_codes >"$work/header"
agree 'include/jarvulpe.h' "$work/header"
page_codes >"$work/page"
agree 'docs/suspects.1' "$work/page"
help_codes >"$work/help"
agree './suspects --help' "$work/help"
second_codes >"$work/second"
same 'second/src/code.rs, which codes' "$(numbers "$work/table")" "$(numbers "$work/second")"

finish
