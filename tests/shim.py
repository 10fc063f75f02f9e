"""A library that the loader puts in front of the C library's, so that calls of a program fail."""
import pathlib
import subprocess
import tempfile
from contextlib import contextmanager


@contextmanager
def failing(source):
    """A folder, and the words of an environment in which programs run over this library. It is built with `cc`."""
    with tempfile.TemporaryDirectory(prefix="rqm-shim-") as top:
        folder = pathlib.Path(top)
        (folder / "shim.c").write_text(source)
        library = str(folder / "shim.so")
        subprocess.run(["cc", "-O2", "-shared", "-fPIC", "-o", library, folder / "shim.c", "-ldl"], check=True)
        yield folder, {"LD_PRELOAD": library}
