#!/bin/bash
# Edits of modules of 1,000 to 1,000,000 operations through the program: microseconds of processor time for each kind of
# command, in one block and in functions of 20 operations, without listeners, with two and with all seven, and a run of
# mlir-opt if MLIR_OPT names one; then edits that are rolled back one by one, and each listener alone
# (`benchmarks/commands.py`). Then a chain of 1,000 known values whose first operand is set (`benchmarks/chain.py`), and
# the bytes that tree, store and each listener take for an operation (`benchmarks/held.py`). Builds the program where it
# isn't. Run at the top of the repository:
#
#     benchmarks/edits.sh [ROUNDS [SIZES]]
#
# SIZES are numbers of operations, the least first, with commas. On an idle machine all of it takes about an hour.
set -eu
rounds=${1:-5}
sizes=${2:-1000,10000,100000,1000000}
cd "$(dirname "$0")/.."
program=$(python3 tools/sources.py --program)

load() {
    cut -d ' ' -f 1-3 /proc/loadavg | sed 's/^/load: /'
}

# The commands of a script over modules of a shape: options, then the mlir-opt.
commands() {
    echo "$1${2:+, ${2#--}}:"
    python3 benchmarks/commands.py --shape "$1" ${2:+"$2"} "$program" "${3:--}" "$sizes" "$rounds"
}

nproc | sed 's/^/processors: /'
load
for shape in block functions; do
    commands "$shape" '' "${MLIR_OPT:-}"
    commands "$shape" --undone
done
commands functions --alone
load
python3 benchmarks/chain.py "$program" "$rounds"
python3 benchmarks/held.py "$program" "${2:-10000,100000,1000000}"
load
