"""The folder of the repository, and the programs that the tools try: the built ones, or those that the environment names (README.md)."""
import os
import shutil

ROOT = os.path.dirname(os.path.dirname(os.path.dirname(os.path.abspath(__file__))))
TOOLS = os.path.join(ROOT, "tools")

# The folder of the Python package.
PYTHON = os.path.join(ROOT, "python")


def built(crate: str) -> str:
    """Returns the path of the program that a crate of this repository builds."""
    return os.path.join(ROOT, "crates", crate, "out", crate)


def chosen(variable: str, crate: str) -> str:
    """Returns the path of the program that an environment variable names, by a path or as a command, or else of the built one."""
    named = os.environ.get(variable)
    return os.path.abspath(shutil.which(named) or named) if named else built(crate)


GAMESMAN = chosen("GAMESMAN", "gamesman")
DRILL = chosen("DRILL", "drill")

# Whether another program is tried than the built one.
IS_ANOTHER = os.path.realpath(GAMESMAN) != os.path.realpath(built("gamesman"))
