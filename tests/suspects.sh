#!/bin/sh
# The program crates/suspects/out/suspects as it was built, and ./suspects with it. POSIX sh. Each sheet of sheets/ is answered once; half a minute.
# Needs cargo for the second program, and rt for ./suspects.
set -u
cd "$(dirname "$0")/.." || exit 2
. tests/lib.sh
program=crates/suspects/out/suspects
sheet=$work/sheet
tab=$(printf '\t')

second() {
    cargo run --manifest-path second/Cargo.toml --release --offline --locked --quiet --bin expected
}

# bytes NUMBER..: each as one byte
bytes() {
    for number; do
        # shellcheck disable=SC2059 # the number in octal is the format
        printf "\\$(printf %03o "$number")"
    done
}

# words NUMBER..: each as a word, the lowest byte first
words() {
    for word; do bytes $((word % 256)) $((word / 256 % 256)) $((word / 65536 % 256)) $((word / 16777216)); done
}

# header N M K L
header() {
    words "$1" "$2" "$3" "$4" 32 $((32 + 4 * $2)) $((32 + 4 * $2 + $4)) $((32 + 4 * $2 + $4 + $3))
}

# repeated TIMES BYTE
repeated() {
    head -c "$1" /dev/zero | tr '\0' "\\$(printf %03o "$2")"
}

# prints NAME OUTPUT: for $sheet, by the program and by the second program
prints() {
    same "$1" "$2" "$("$program" <"$sheet" 2>&1)"
    same "$1, the second program" "$2" "$(second <"$sheet" 2>&1)"
}

meaning_of() {
    sed -n "s/^$1$tab//p" docs/codes.txt
}

if [ ! -x "$program" ]; then
    fail "there is no $program: 'rt run' in crates/suspects makes it"
    finish
fi
works 'the second program is built' cargo build --manifest-path second/Cargo.toml --release --offline --locked --quiet --bin expected

# Stored, printed and worked out by the second program: all three are the same. triangles-64 has answers 18 and 19, so it is answered
# through ./suspects, which says what they mean.
for file in sheets/*.sheet; do
    name=$(basename "$file" .sheet)
    if [ "$name" = triangles-64 ]; then
        ./suspects "$file" >"$work/out" 2>"$work/err"
    else
        "$program" <"$file" >"$work/out"
    fi
    same "$name: status" 0 $?
    same_file "$name: the program" "tests/expected/$name.txt" "$work/out"
    second <"$file" >"$work/out"
    same_file "$name: the second program" "tests/expected/$name.txt" "$work/out"
    sizes=$(sed -n '1s/^sheet //p' "tests/expected/$name.txt")
    has "$name: its bytes, n, m and k" "| $name | $(wc -c <"$file") | $sizes |" sheets/README.md
done
for code in 18 19; do
    same "triangles-64, what $code means" "suspects: $code: $(meaning_of $code)" "$(grep "^suspects: $code:" "$work/err")"
done
same 'each sheet has a stored output, and no other is stored' "$(cd sheets && echo ./*.sheet | sed 's/\.sheet//g')" \
    "$(cd tests/expected && echo ./*.txt | sed 's/\.txt//g')"

# What the documents show of sheet A.
sed -n '/^sheet 3 2 3$/,/^3/p' docs/suspects.1 >"$work/out"
same_file 'the example of the manual page' tests/expected/A.txt "$work/out"
sed -n '/^    sheet 3 2 3$/,/^$/s/^    //p' sheets/README.md >"$work/out"
same_file 'the example in sheets/README.md' tests/expected/A.txt "$work/out"
same 'the bytes in sheets/README.md' "$(od -An -v -tx1 sheets/A.sheet | tr -d ' \n')" \
    "$(sed -n 's/^    000000[0-9]0  //p' sheets/README.md | tr -d ' \n')"

# The front page: its command, run as it stands, prints what it shows, and its bytes are the sheet's.
command=$(sed -n '/^## Run$/,/^## /s/^    //p' README.md | head -n 1)
sh -c "$command" >"$work/out"
same "README.md: status of '$command'" 0 $?
same_file "README.md: output of '$command'" tests/expected/A.txt "$work/out"
sed -n '/^    sheet 3 2 3$/,/^$/s/^    //p' README.md >"$work/out"
same_file 'the output in README.md' tests/expected/A.txt "$work/out"
same 'the bytes in README.md' "$(od -An -v -tx1 sheets/A.sheet | tr -d ' \n')" \
    "$(sed -n 's/^    \(\([0-9a-f]\{2\} \{1,2\}\)\{15,16\}\) .*/\1/p' README.md | tr -d ' \n')"

# Refusals, with one fault each. Most are sheet A or B but for the fault: A is n 3, clauses (-1 -2) (-2 -3), objectives 1 2 3, and B is n 2,
# clause (-1), objectives 1 2.
: >"$sheet"
prints '10: empty' 'refused 10'
bytes 1 >"$sheet"
prints '10: one byte' 'refused 10'
header 1 0 0 0 | head -c 31 >"$sheet"
prints '10: 31 bytes' 'refused 10'
header 0 0 0 0 >"$sheet"
prints '11: no atom' 'refused 11'
header 65 0 0 0 >"$sheet"
prints '11: 65 atoms' 'refused 11'
{ header 1 1025 0 0 && repeated 4100 0; } >"$sheet"
prints '11: 1,025 clauses' 'refused 11'
# shellcheck disable=SC2046 # each number is a word
{ header 64 0 65 0 && bytes $(seq 1 64) 255; } >"$sheet"
prints '11: 65 objectives' 'refused 11'
{ header 1 1 0 8193 && words 8193 && repeated 8193 1; } >"$sheet"
prints '11: 8,193 literals' 'refused 11'
for offsets in '33 36 37 39' '32 37 37 39' '32 36 36 39' '32 36 37 40'; do
    # shellcheck disable=SC2086 # each number is a word
    { words 2 1 2 1 $offsets 1 && bytes 255 1 2; } >"$sheet"
    prints "12: words 4 to 7 are $offsets" 'refused 12'
done
head -c 38 sheets/B.sheet >"$sheet"
prints '12: a byte is missing' 'refused 12'
{ cat sheets/B.sheet && bytes 0; } >"$sheet"
prints '12: a byte more' 'refused 12'
for ends in '5 4' '2 3' '2 5'; do
    # shellcheck disable=SC2086 # each number is a word
    { header 3 2 3 4 && words $ends && bytes 255 254 254 253 1 2 3; } >"$sheet"
    prints "13: ends $ends of 4 literals" 'refused 13'
done
{ header 1 0 0 1 && bytes 1; } >"$sheet"
prints '13: a literal and no clause' 'refused 13'
for byte in 0 3 128 253; do
    { header 2 1 2 1 && words 1 && bytes "$byte" 1 2; } >"$sheet"
    prints "14: clause byte $byte of 2 atoms" 'refused 14'
    { header 2 1 2 1 && words 1 && bytes 255 "$byte" 2; } >"$sheet"
    prints "15: objective byte $byte of 2 atoms" 'refused 15'
done
{ header 2 1 2 1 && words 1 && bytes 255 2 2; } >"$sheet"
prints '15: an objective twice' 'refused 15'

# The longest sheet. All its clauses but the last are empty, so that every question is settled at the root; its objectives are -1 to -64.
# shellcheck disable=SC2046 # each number is a word
{ header 64 1024 64 8192 && repeated 4092 0 && words 8192 && repeated 8192 1 && bytes $(seq 255 -1 192); } >"$sheet"
same 'bytes of the longest sheet' 12384 "$(wc -c <"$sheet")"
prints 'the longest sheet' "sheet 64 1024 64
$(seq 1 64 | sed 's/.*/& -& no 1 0 0/')"
repeated 1 0 >>"$sheet"
prints '12: 12,385 bytes' 'refused 12'
repeated 100000 0 >>"$sheet"
prints '12: 112,385 bytes' 'refused 12'
# The rest is neither read nor waited for: a file is left at its 12,385th byte, and a pipe need not be closed.
same 'bytes left of 112,385' 100000 "$({ "$program" >"$work/out" && wc -c; } <"$sheet")"
same 'answered before the pipe is closed' 'refused 12' "$({ head -c 12385 "$sheet" && sleep 2 && touch "$work/closed"; } | "$program" | {
    read -r line
    [ -e "$work/closed" ] || echo "$line"
})"

# A sheet that comes in pieces, byte by byte and with pauses.
{ dd bs=1 count=20 && sleep 1 && dd bs=1 count=22 && sleep 1 && cat; } <sheets/A.sheet 2>"$work/said" | "$program" >"$work/out"
same_file 'a sheet in pieces' tests/expected/A.txt "$work/out"

# ./suspects with the program as it is; tests/script.sh has the rest.
mkdir "$work/a folder"
cp sheets/A.sheet "$work/a folder/-a sheet"
root=$PWD
(cd "$work/a folder" && "$root/suspects" '-a sheet') >"$work/out" 2>"$work/err"
same './suspects: status' 0 $?
same_file './suspects: output' tests/expected/A.txt "$work/out"
same './suspects: standard error' '' "$(cat "$work/err")"
./suspects - <"$sheet" >"$work/out" 2>"$work/err"
same './suspects on a long sheet: status' 1 $?
same './suspects on a long sheet: output' 'refused 12' "$(cat "$work/out")"
same './suspects on a long sheet: standard error' "suspects: 12: $(meaning_of 12)" "$(cat "$work/err")"

finish
