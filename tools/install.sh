#!/bin/sh
# Installs the program `mlir_work` that `./run` starts; the command line `mlir-work`, which needs Python 3; a man page;
# completions for bash and zsh; the pages for users, in share/doc/mlir_work; and the Python package, in
# share/mlir_work/python. MLIR_WORK selects another program.
# If there is a library of these sources, or MLIR_WORK_ARCHIVE names one, it also installs the library in lib/, with a
# file for pkg-config and a package for CMake, its headers in include/, and the Rust crates in share/mlir_work/rust.
#
# usage: tools/install.sh PREFIX
set -eu
[ $# -eq 1 ] || { sed -n '2,8s/^# \{0,1\}//p' "$0" >&2; exit 2; }
mkdir -p "$1"
prefix=$(cd "$1" && pwd)
here=$(cd "$(dirname "$(readlink -f "$0")")/.." && pwd)
program=${MLIR_WORK-$(python3 "$here/tools/sources.py" --program)}
version=$(sed -n 's/^## \([^ ]*\).*/\1/p' "$here/CHANGELOG.md" | head -n 1)
share=$prefix/share/mlir_work
package=$share/python/mlir_work

mkdir -p "$prefix/bin" "$share/tools" "$share/dist" "$prefix/share/man/man1" \
    "$prefix/share/bash-completion/completions" "$prefix/share/zsh/site-functions" "$share/python/oracle"
cp "$program" "$prefix/bin/mlir_work.new"
chmod 755 "$prefix/bin/mlir_work.new"
mv "$prefix/bin/mlir_work.new" "$prefix/bin/mlir_work"
cp "$here/tools/sources.py" "$share/tools"
cp "$here"/oracle/*.py "$share/python/oracle"
cp "$here/bindings/python/pyproject.toml" "$here/bindings/python/backend.py" "$share/python"
python3 "$here/bindings/python/backend.py" "$share/python"
# The package uses the library if it is next to the package, or else a process.
library=
rm -f "$package/libmlir_work.so"
if [ -n "${MLIR_WORK_ARCHIVE-}" ] || python3 "$here/tools/sources.py" --library >/dev/null 2>&1; then
    cmake=$prefix/lib/cmake/mlir_work
    mkdir -p "$prefix/lib/pkgconfig" "$cmake" "$prefix/include" "$share/rust"
    python3 "$here/tools/library.py" "$prefix/lib" >/dev/null
    sed "s/@VERSION@/$version/" "$here/bindings/c/mlir_work.pc.in" >"$prefix/lib/pkgconfig/mlir_work.pc"
    sed "s/@VERSION@/$version/" "$here/bindings/c/mlir_workConfigVersion.cmake.in" \
        >"$cmake/mlir_workConfigVersion.cmake"
    cp "$here/bindings/c/mlir_workConfig.cmake" "$cmake"
    cp "$here/bindings/c/mlir_work.h" "$here/bindings/cpp/mlir_work.hpp" "$prefix/include"
    cp -R "$here/bindings/rust/Cargo.toml" "$here"/bindings/rust/mlir_work* "$share/rust"
    [ ! -f "$prefix/lib/libmlir_work.so" ] ||
        ln -s ../../../../lib/libmlir_work.so "$package/libmlir_work.so"
    library=", lib/libmlir_work.a, include/mlir_work.h"
fi
[ ! -f "$here/dist/MANIFEST" ] || cp "$here/dist/MANIFEST" "$share/dist"

# The man page and the completions are generated from the help of the installed program, docs/commands.json, and the
# help of the command line.
"$prefix/bin/mlir_work" --help >"$share/tools/help.txt"
made() {
    PYTHONPATH=$share/python python3 -m mlir_work.cli.manual "$1" "$share/tools/help.txt" "$version"
}
made man >"$prefix/share/man/man1/mlir_work.1"
ln -sf mlir_work.1 "$prefix/share/man/man1/mlir-work.1"
made bash >"$prefix/share/bash-completion/completions/mlir_work"
ln -sf mlir_work "$prefix/share/bash-completion/completions/mlir-work"
made zsh >"$prefix/share/zsh/site-functions/_mlir_work"

# The pages for users.
pages=$prefix/share/doc/mlir_work
mkdir -p "$pages"
for page in GUIDE COOKBOOK PATTERNS FROM_MLIR_OPT CANONICALIZE CONVERT VERIFIER REPORTS REFUSALS OPERATIONS JSON \
    EMBED; do
    cp "$here/docs/$page.md" "$pages"
done

# This file is in the folder of the package, so that Python finds the package.
cat >"$share/python/mlir-work" <<'END'
from mlir_work.cli.main import start

start()
END
cat >"$prefix/bin/mlir-work" <<'END'
#!/bin/sh
# The command line of mlir_work: mlir-work --help lists the commands.
prefix=$(cd "$(dirname "$(readlink -f "$0")")/.." && pwd)
if [ "${1-}" = --version ]; then
    exec python3 "$prefix/share/mlir_work/tools/sources.py" --version "$prefix/bin/mlir_work"
fi
MLIR_WORK_INSTALLED=$prefix/bin/mlir_work exec python3 "$prefix/share/mlir_work/python/mlir-work" "$@"
END
chmod 755 "$prefix/bin/mlir-work"
echo "installed in $prefix: bin/mlir_work, bin/mlir-work, share/man/man1/mlir_work.1, completions for bash and zsh,
share/doc/mlir_work, share/mlir_work/python$library"
