#!/bin/sh
# The static library through its C header: tests/boundary.c, the example that the header opens with, and the stack that it promises. POSIX
# sh; needs gcc and crates/jarvulpe/out/libjarvulpe.a.
set -u
cd "$(dirname "$0")/.." || exit 2
. tests/lib.sh
header=include/jarvulpe.h
library=crates/jarvulpe/out/libjarvulpe.a

# compiled NAME COMPILER SOURCE PROGRAM: without a warning
compiled() {
    # shellcheck disable=SC2086 # the compiler's name and its standard are two words
    works "$1" $2 -Wall -Wextra -Werror -pedantic -O2 -Iinclude "$3" "$library" -o "$4"
}

# printed NAME PROGRAM: the example prints what it should
printed() {
    "$2" >"$work/printed"
    same "$1: status" 0 $?
    same_file "$1: output" "$work/wanted" "$work/printed"
}

compiled 'the cases compile' 'gcc -std=c99' tests/boundary.c "$work/boundary"
counts 'the cases' "$work/boundary"

# The example, from its first #include to the end of main, out of the comment that the header opens with.
sed -n '/^ \*     #include/,/^ \*     }$/s/^ \* \{0,5\}//p' "$header" >"$work/example.c"
# Worked by hand from document 01: the literals -1 and -2 on sheet B.
cat >"$work/wanted" <<'END'
2 atoms, 1 clauses, 2 objectives
can -1 hold? code 1 after 7 steps, as in 0 1
can -2 hold? code 2 after 9 steps
END
sed -n '/^ \* It prints/,/^ \* What holds/s/^ \*     //p' "$header" >"$work/said-to-print"
same_file 'what the header says that its example prints' "$work/wanted" "$work/said-to-print"
compiled 'the example compiles as C' 'gcc -std=c99' "$work/example.c" "$work/example"
printed 'the example as C' "$work/example"
if command -v g++ >"$work/said"; then
    cp "$work/example.c" "$work/example.cpp"
    compiled 'the example compiles as C++' 'g++ -std=c++11' "$work/example.cpp" "$work/example++"
    printed 'the example as C++' "$work/example++"
else
    echo 'no C++ compiler: the example was not tried as C++'
fi

works 'the stack measurement compiles' gcc -O2 -Wall -Wextra -Werror -Iinclude bench/stack.c "$library" -o "$work/stack"
works 'the stack that the header promises is enough' "$work/stack"

finish
