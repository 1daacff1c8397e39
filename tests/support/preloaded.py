"""The program as it was built, without the shell script that starts it, and libraries in C that are loaded before the C
library's."""
import os
import subprocess

from tests.support.program import TOP

BUILT = TOP / "crates" / "gr_main" / "out" / "gr_main"


def library(source, folder):
    """Compiles a library into this folder. Gives its path, for the environment variable LD_PRELOAD."""
    made = folder / source.with_suffix(".so").name
    compiler = os.environ.get("CC", "cc")
    subprocess.run([compiler, "-shared", "-fPIC", "-O1", "-o", made, source], check=True)
    return made
