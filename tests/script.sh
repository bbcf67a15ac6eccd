#!/bin/sh
# The script ./suspects by itself: in a folder of its own, with stand-ins for rt and for the program, which do as the sheet says. POSIX sh.
set -u
cd "$(dirname "$0")/.." || exit 2
. tests/lib.sh
here=$work/tree
mkdir -p "$here/docs" "$here/crates/words" "$here/crates/suspects" "$work/bin" "$work/tools" "$work/elsewhere"
cp suspects "$here/suspects"
cp docs/codes.txt "$here/docs/codes.txt"
: >"$here/crates.txt"
cd "$here" || exit 2

# The stand-in for rt, called in crates/suspects. What it reads must be nothing: standard input may be the sheet.
cat >"$work/bin/rt" <<'END'
#!/bin/sh
printf '%s in %s\n' "$*" "${PWD##*/}" >>"$CALLS"
cd ../..
cat
[ ! -e rt-fails ] || { echo 'suspects NOT PROVED'; exit 1; }
[ ! -e rt-leaves-nothing ] || exit 0
mkdir -p crates/suspects/out && cp "$PROGRAM" crates/suspects/out/suspects
END
# The stand-in for the program: a sheet is the name of what to do.
cat >"$work/program" <<'END'
#!/bin/sh
case $(cat) in
answers) printf 'sheet 2 1 2\n1 1 yes 7 1 0\n2 2 no 9 1 1\n' ;;
no-objective) echo 'sheet 1 0 0' ;;
undecided) printf 'sheet 4 1 4\n1 1 18 18 1 0\n2 2 19 19 1 1024\n3 3 18 9 1 0\n4 18 yes 19 1 0\n' ;;
unlike-undecided) printf 'sheet 18 19 2\n18 18 yes 18 18 0\n19 -19 no 19 19 18\n' ;;
refused) echo 'refused 12' ;;
refused-anew) echo 'refused 99' ;;
nothing) ;;
rubbish) echo 'Segmentation fault' ;;
short) printf 'sheet 2 1 2\n1 1 yes 7 1 0\n' ;;
failing) printf 'sheet 2 1 1\n1 1 yes 7 1 0\n'; exit 3 ;;
killed) printf 'sheet 2 1 2\n'; kill -s KILL $$ ;;
streamed)
    echo 'sheet 1 0 1'
    for second in 1 2 3 4 5; do [ -e seen ] || sleep 1; done
    if [ -e seen ]; then echo '1 1 yes 1 1 0'; else echo '1 1 no 0 0 0'; fi
    ;;
esac
END
chmod +x "$work/bin/rt" "$work/program"
CALLS=$work/calls PROGRAM=$work/program
PATH=$work/bin:$PATH
export CALLS PROGRAM PATH
for sheet in answers no-objective undecided unlike-undecided refused refused-anew nothing rubbish short failing killed streamed; do
    echo "$sheet" >"$sheet.sheet"
done

# run ARGUMENTS..: leaves status, standard output and standard error
run() {
    ./suspects "$@" >"$work/out" 2>"$work/err" </dev/null
    status=$?
}

# ends NAME STATUS OUTPUT: how the last run ended
ends() {
    same "$1: status" "$2" "$status"
    same "$1: output" "$3" "$(cat "$work/out")"
}

# says NAME WORDS..: each on standard error of the last run; without WORDS, nothing is said
says() {
    named=$1
    shift
    [ $# -ne 0 ] || same "$named: standard error" '' "$(cat "$work/err")"
    for words; do has "$named: standard error" "$words" "$work/err"; done
}

sentence() {
    sed -n "s/^$1$(printf '\t')//p" docs/codes.txt
}

two='sheet 2 1 2
1 1 yes 7 1 0
2 2 no 9 1 1'

run answers.sheet
ends 'the first run' 0 "$two"
says 'the first run' 'proving and building' 'two minutes'
same 'rt was called once' 'run in suspects' "$(cat "$CALLS")"
run answers.sheet
ends 'the second run' 0 "$two"
says 'the second run'
same 'rt was called again' 2 "$(wc -l <"$CALLS")"
touch -t 203001010000 crates/words/lib.rt
run answers.sheet
ends 'after a change' 0 "$two"
says 'after a change' 'proving and building'
rm crates/words/lib.rt
touch -t 200001010000 crates crates/words crates/suspects crates.txt

run no-objective.sheet
ends 'no objective' 0 'sheet 1 0 0'
says 'no objective'
run undecided.sheet
same '18 and 19: status' 0 "$status"
same '18 and 19: standard error' "suspects: 18: $(sentence 18)
suspects: 19: $(sentence 19)" "$(cat "$work/err")"
run unlike-undecided.sheet
same '18 and 19 in other columns: status' 0 "$status"
says '18 and 19 in other columns'

run refused.sheet
ends 'refused' 1 'refused 12'
same 'refused: standard error' "suspects: 12: $(sentence 12)" "$(cat "$work/err")"
run refused-anew.sheet
ends 'an unknown code' 1 'refused 99'
says 'an unknown code' 'docs/codes.txt does not have this code'

run nothing.sheet
ends 'no output' 2 ''
says 'no output' 'printed nothing'
run rubbish.sheet
ends 'other output' 2 'Segmentation fault'
says 'other output' 'something else than answers'
run short.sheet
ends 'an answer missing' 2 'sheet 2 1 2
1 1 yes 7 1 0'
says 'an answer missing' 'broke off after 1 of 2 answers'
run failing.sheet
ends 'a status' 2 'sheet 2 1 1
1 1 yes 7 1 0'
says 'a status' 'broke off with status 3'
run killed.sheet
ends 'killed' 2 'sheet 2 1 2'
says 'killed' 'broke off with status 137'

streamed=$(./suspects streamed.sheet 2>"$work/err" | {
    read -r line
    touch seen
    printf '%s, ' "$line"
    cat
})
same 'each line as it comes' 'sheet 1 0 1, 1 1 yes 1 1 0' "$streamed"
same 'a reader that leaves' 'sheet 2 1 2' "$(./suspects answers.sheet | head -n 1)"

cp answers.sheet 'two words.sheet'
cp answers.sheet ./-dash.sheet
cp answers.sheet ./--help
cp answers.sheet ./-
for name in 'two words.sheet' -dash.sheet ./--help ./-; do
    run "$name"
    ends "the file '$name'" 0 "$two"
done
for name in -dash.sheet --help -; do
    run -- "$name"
    ends "the file '$name' after --" 0 "$two"
done
./suspects - <answers.sheet >"$work/out" 2>"$work/err"
status=$?
ends 'standard input' 0 "$two"
echo answers | ./suspects - >"$work/out" 2>"$work/err"
status=$?
ends 'a pipe' 0 "$two"

ln -s "$here/suspects" "$work/elsewhere/link"
cp refused.sheet "$work/elsewhere/answers.sheet"
cd "$work/elsewhere" || exit 2
"$here/suspects" answers.sheet >"$work/out" 2>"$work/err"
status=$?
cd "$here" || exit 2
ends 'from another folder' 1 'refused 12'
"$work/elsewhere/link" answers.sheet >"$work/out" 2>"$work/err"
status=$?
ends 'through a link' 0 "$two"

run --help
same 'help: status' 0 "$status"
same 'help: standard error' '' "$(cat "$work/err")"
for word in yes no 18 19 position literal answer steps tests stored refused 'Exit status'; do has 'help' "$word" "$work/out"; done
for arguments in '' '--' 'answers.sheet answers.sheet' '-- answers.sheet answers.sheet'; do
    # shellcheck disable=SC2086 # these are several words
    run $arguments
    ends "usage '$arguments'" 2 ''
    says "usage '$arguments'" 'usage: ./suspects SHEET'
done
run ''
ends 'an empty name' 2 ''
run missing.sheet
ends 'a missing file' 2 ''
says 'a missing file' 'there is no file missing.sheet'
run docs
ends 'a folder' 2 ''
says 'a folder' 'docs is a folder'
cp answers.sheet locked.sheet
chmod 000 locked.sheet
# root can read everything
if [ ! -r locked.sheet ]; then
    run locked.sheet
    ends 'an unreadable file' 2 ''
    says 'an unreadable file' 'locked.sheet cannot be read'
fi

touch rt-fails
run answers.sheet
ends 'a failed build' 2 ''
says 'a failed build' 'suspects NOT PROVED' 'the build failed'
rm rt-fails
rm -f crates/suspects/out/suspects
touch rt-leaves-nothing
run answers.sheet
ends 'a build without a program' 2 ''
says 'a build without a program' 'left no crates/suspects/out/suspects'
rm rt-leaves-nothing
for tool in awk cat cut dirname find grep mkdir mktemp realpath rm sed sh tee wc; do ln -s "$(command -v "$tool")" "$work/tools/$tool"; done
PATH=$work/tools ./suspects answers.sheet >"$work/out" 2>"$work/err"
status=$?
ends 'without rt' 2 ''
says 'without rt' 'rt is not installed'
mv docs/codes.txt docs/away
run answers.sheet
ends 'without the codes' 2 ''
says 'without the codes' 'docs/codes.txt is missing'

cd / || exit 2
finish
