#!/bin/sh
# Reads and prints each module NAME.mlir of a folder, and compares the output with NAME.norm next to it, byte for byte.
# Run at the top of the repository, of the program that `./run` starts:
#
#     tests/compare/corpus.sh FOLDER
set -eu
folder=$1
program=$(python3 "$(dirname "$0")/../../tools/sources.py" --program)
work=$(mktemp -d)
trap 'rm -rf "$work"' EXIT
same=0
other=0
for module in "$folder"/*.mlir; do
    printf '%s\n// -----\nprint\n' "$(cat "$module")" >"$work/in"
    "$program" --brief <"$work/in" >"$work/out" || true
    { echo '1 ok'; cat "${module%.mlir}.norm"; } >"$work/wanted"
    if cmp -s "$work/out" "$work/wanted"; then
        same=$((same + 1))
    else
        other=$((other + 1))
        echo "differs: $module"
    fi
done
echo "$same modules printed to the byte, $other not"
[ "$other" = 0 ]
