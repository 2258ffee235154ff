"""Packs the package for `pip install ./bindings/python` (PEP 517, PEP 660), without a tool that has to be fetched. The
wheel has the shared library of the workbench if there is one: next to the package, or made from dist/ in a checkout.

usage: bindings/python/backend.py FOLDER     writes the files of the package into a folder"""
import base64
import hashlib
import io
import pathlib
import re
import subprocess
import sys
import sysconfig
import tarfile
import tempfile
import zipfile

HERE = pathlib.Path(__file__).resolve().parent
ABOUT = (HERE / "pyproject.toml").read_text()
NAME = "mlir_work"
KEPT = (".py", ".html", ".css", ".js")
SHARED = "libmlir_work.so"
# The earliest time that an archive can record. With a fixed time, equal files give equal archives.
WHEN = (1980, 1, 1, 0, 0, 0)


def said(key):
    """Returns the value of a key in pyproject.toml."""
    return re.search(rf'^{key} = "(.*)"$', ABOUT, re.M)[1]


def title():
    """Returns the name and the version of the package."""
    return f"{NAME}-{said('version')}"


def metadata():
    """Returns the metadata of the package."""
    kinds = re.search(r"^classifiers = \[(.*)\]$", ABOUT, re.M)[1]
    lines = ["Metadata-Version: 2.1", f"Name: {NAME}", f"Version: {said('version')}",
             f"Summary: {said('description')}", f"Requires-Python: {said('requires-python')}"]
    lines += [f"Classifier: {it}" for it in re.findall('"(.*?)"', kinds)]
    return "".join(line + "\n" for line in lines).encode()


def pages():
    """Returns the folder of the pages: next to the command line in an installed package, docs/ in a checkout."""
    packed_pages = HERE / NAME / "cli/docs"
    return packed_pages if packed_pages.is_dir() else HERE.parents[1] / "docs"


def files():
    """Returns the files of the package, by their names in an archive. Of the pages it has those that the command line
    reads, which data.py lists."""
    read = re.search(r'PAGES = \((.*?)\)', (HERE / NAME / "cli/data.py").read_text(), re.S)[1]
    found = [it for it in (HERE / NAME).rglob("*") if it.suffix in KEPT or it.name == "py.typed"]
    inside = {it.relative_to(HERE).as_posix(): it.read_bytes() for it in found}
    inside |= {f"{NAME}/cli/docs/{it}": (pages() / it).read_bytes() for it in re.findall('"(.*?)"', read)}
    return dict(sorted(inside.items()))


def shared():
    """Returns the bytes of the shared library, or None if there is none and none can be made."""
    beside, maker = HERE / NAME / SHARED, HERE.parent.parent / "tools/library.py"
    if beside.is_file():
        return beside.read_bytes()
    with tempfile.TemporaryDirectory() as room:
        made = pathlib.Path(room, SHARED)
        if maker.is_file():
            subprocess.run([sys.executable, str(maker), room], capture_output=True, check=False)
        return made.read_bytes() if made.is_file() else None


def packed(folder, inside):
    """Writes a wheel of some files, and returns its name. A wheel with the shared library is for this platform only."""
    is_bound = f"{NAME}/{SHARED}" in inside
    tag = f"py3-none-{re.sub('[-.]', '_', sysconfig.get_platform()) if is_bound else 'any'}"
    about, name = f"{title()}.dist-info", f"{title()}-{tag}.whl"
    wheel = "Wheel-Version: 1.0\nGenerator: mlir_work\n"
    wheel = f"{wheel}Root-Is-Purelib: {'false' if is_bound else 'true'}\nTag: {tag}\n".encode()
    whole = {**inside, f"{about}/METADATA": metadata(), f"{about}/WHEEL": wheel,
             f"{about}/entry_points.txt": f"[console_scripts]\nmlir-work = {said('mlir-work')}\n".encode()}
    record = ""
    for path, data in whole.items():
        digest = base64.urlsafe_b64encode(hashlib.sha256(data).digest()).rstrip(b"=").decode()
        record += f"{path},sha256={digest},{len(data)}\n"
    whole[f"{about}/RECORD"] = f"{record}{about}/RECORD,,\n".encode()
    with zipfile.ZipFile(pathlib.Path(folder, name), "w", zipfile.ZIP_DEFLATED) as archive:
        for path, data in whole.items():
            it = zipfile.ZipInfo(path, WHEN)
            it.external_attr, it.compress_type = 0o100644 << 16, zipfile.ZIP_DEFLATED
            archive.writestr(it, data)
    return name


def build_wheel(wheel_directory, config_settings=None, metadata_directory=None):
    """Writes a wheel of the package, and returns its name."""
    library = shared()
    return packed(wheel_directory, {**files(), **({f"{NAME}/{SHARED}": library} if library else {})})


def build_editable(wheel_directory, config_settings=None, metadata_directory=None):
    """Writes a wheel that links to this folder, and returns its name."""
    return packed(wheel_directory, {f"{NAME}.pth": f"{HERE}\n".encode()})


def build_sdist(sdist_directory, config_settings=None):
    """Writes an archive of the sources, and returns its name."""
    name, own = f"{title()}.tar.gz", {it: (HERE / it).read_bytes() for it in ("pyproject.toml", "backend.py")}
    with tarfile.open(pathlib.Path(sdist_directory, name), "w:gz", format=tarfile.PAX_FORMAT) as archive:
        for path, data in {"PKG-INFO": metadata(), **own, **files()}.items():
            it = tarfile.TarInfo(f"{title()}/{path}")
            it.size, it.mode = len(data), 0o644
            archive.addfile(it, io.BytesIO(data))
    return name


def main():
    """Writes the files of the package into a folder."""
    if len(sys.argv) != 2 or sys.argv[1].startswith("-"):
        sys.exit(__doc__)
    for path, data in files().items():
        made = pathlib.Path(sys.argv[1], path)
        made.parent.mkdir(parents=True, exist_ok=True)
        made.write_bytes(data)


if __name__ == "__main__":
    main()
