"""The checkout.py of the top folder, for the scripts of this folder: a script finds it beside itself."""
import pathlib
import runpy

globals().update(runpy.run_path(str(pathlib.Path(__file__).resolve().parents[3] / "checkout.py")))
