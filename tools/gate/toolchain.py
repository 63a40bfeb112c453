"""The toolchain's command `rt` as a module, and the top of the repository."""
import os
import pathlib
import shutil
import sys

sys.dont_write_bytecode = True
sys.path.insert(0, str(pathlib.Path(__file__).resolve().parent.parent / "shared"))
import tried

TOP = str(tried.TOP)
ONE = ["--jobs", "1"]
rt = tried.loaded(os.path.realpath(shutil.which("rt")))
