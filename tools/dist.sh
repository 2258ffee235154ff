#!/bin/sh
# Writes the proved program and library to dist/: dist/mlir_work.xz, dist/libmlir_work.a.xz and dist/MANIFEST
# (tools/dist.py describes them).
#
# usage: tools/dist.sh              ships the program that `./run` or `.ci/run` built, and the library if there is one
#        tools/dist.sh --compare    compares the build with dist/, if dist/MANIFEST is of these sources
exec python3 "$(dirname "$0")/dist.py" "$@"
