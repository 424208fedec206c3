"""Programs that tests run: the repository's, and the kit's tools."""
import functools
import os
import subprocess
from pathlib import Path

TOP = Path(__file__).resolve().parent.parent


@functools.cache
def path_of(name):
    """The path of one, which is proved and built if it is not there yet."""
    done = subprocess.run([TOP / "scripts" / "built", name], stdout=subprocess.PIPE, check=True)
    return Path(os.fsdecode(done.stdout).removesuffix("\n"))


def tool(name):
    """The path of one of the kit's LLVM."""
    page = subprocess.run(["rt", "doc"], stdout=subprocess.PIPE, check=True, text=True).stdout
    return Path(page.strip()).parent / "toolchain" / "bin" / name
