#!/bin/sh
# Reads modules of as many operations as there may be, and of one more, and rewrites one of so many, and compares the
# answers. Run at the top of the repository, of the program that `./run` starts:
#
#     benchmarks/limits.sh
set -eu
program=$(python3 "$(dirname "$0")/../tools/sources.py" --program)
work=$(mktemp -d)
trap 'rm -rf "$work"' EXIT
failed=0

# So many operations, of 12 bytes each.
operations() {
    yes '"t"():()->()' | head -n "$1" | tr -d '\n'
}

# Runs the program over the module, with a script if one is given, and compares what it prints with the text.
answers() {
    printf '\n// -----\n%s\n' "${3-}" >>"$work/in"
    "$program" --brief <"$work/in" >"$work/out" || true
    if [ "$(cat "$work/out")" = "$2" ]; then
        echo "$1: as it must be"
    else
        failed=1
        echo "$1: '$(head -c 200 "$work/out")' and not '$2'"
    fi
}

operations 1048575 >"$work/in"
answers 'operations with a root around them, 1,048,576 in all' ''

operations 1048576 >"$work/in"
answers 'one more, at the end of the text' 'module refused 11 TooMany at 12582913'

operations 1048577 >"$work/in"
answers 'two more, at the name of the last' 'module refused 11 TooMany at 12582912'

{ printf '"builtin.module"()({' && operations 1048575 && printf '}):()->()'; } >"$work/in"
answers 'a module of operations, 1,048,576 in all' ''

{ printf '"builtin.module"()({' && operations 1048576 && printf '}):()->()'; } >"$work/in"
answers 'one more, at its name' 'module refused 11 TooMany at 12582920'

maximum='%a="t"():()->i8 %b="arith.maxsi"(%a,%a):(i8,i8)->i8'
{ operations 1048571 && printf '%s' "$maximum"; } >"$work/in"
answers 'a conversion that makes two of 1,048,576' '1 converted 1' 'convert partial illegal arith.maxsi rules 25'

{ operations 1048572 && printf '%s' "$maximum"; } >"$work/in"
answers 'one more, and there is no room for both' '1 refused 31 Full' 'convert partial illegal arith.maxsi rules 25'

# A sum of constants, in three operations. Canonicalization inserts a constant before it erases the sum.
sum='%a="arith.constant"()<{value=1:i8}>:()->i8 %b="arith.addi"(%a,%a):(i8,i8)->i8 "t"(%b):(i8)->()'

{ operations 1048572 && printf '%s' "$sum"; } >"$work/in"
answers 'a rewrite that would make one more than 1,048,576' '1 refused 31 Full' canon

{ operations 1048571 && printf '%s' "$sum"; } >"$work/in"
answers 'a rewrite that makes the last of 1,048,576' '1 converged 2' canon

[ "$failed" = 0 ]
