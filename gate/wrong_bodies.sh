#!/bin/bash
# Wrong bodies that the prover must refuse, in addition to those that the gate tries: `tests/mutants/CRATE/NAME.edit`,
# each an edit as `crates/CRATE/must-fail` has them (`tests/mutants/README.md` says what each shows). They are copied
# into a clone of the committed repository, where `rt must-fail` tries them. The proofs of libraries here are copied
# too. Prints a line for each, and whether all were refused. Run it at the top of the repository:
#
#     gate/wrong_bodies.sh [CRATE..]      (each crate that has some)
#
# A crate's first edit is a check of the whole crate, so all of them take about an hour of one processor, and more where
# the libraries below aren't proved.
set -eu
cd "$(dirname "$0")/.."
here=$PWD
[ $# -gt 0 ] || set -- $(cd tests/mutants && printf '%s\n' */*.edit | cut -d/ -f1 | sort -u)
work=$(mktemp -d)
trap 'rm -rf "$work"' EXIT

git clone --quiet --no-hardlinks "$here" "$work/clone"
for library in crates/*/out/rlib; do
    [ -d "$library" ] || continue
    [ -d "$work/clone/${library%/out/rlib}" ] || continue
    mkdir -p "$work/clone/${library%/rlib}"
    cp -a "$library" "$work/clone/$library"
done

tried=0
wrong=0
for crate in "$@"; do
    edits=("tests/mutants/$crate"/*.edit)
    [ -e "${edits[0]}" ] || { echo "$crate: no wrong bodies here"; wrong=$((wrong + 1)); continue; }
    into="$work/clone/crates/$crate/must-fail"
    rm -rf "$into"
    mkdir -p "$into"
    cp -- "${edits[@]}" "$into"
    # Messages about a bad edit or an unproved library are only in the log.
    (cd "$work/clone" && rt must-fail "$crate") >"$work/log" 2>&1 || true
    for edit in "${edits[@]}"; do
        tried=$((tried + 1))
        line=$(grep -F "must-fail $crate/$(basename "$edit"): " "$work/log" | head -n 1 || true)
        echo "${line:-must-fail $crate/$(basename "$edit"): not tried: $(tail -n 1 "$work/log")}"
        case $line in *": refused, as it must be"*) ;; *) wrong=$((wrong + 1)) ;; esac
    done
done
echo "$tried edits, $wrong not refused"
[ "$wrong" = 0 ]
