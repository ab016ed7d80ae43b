"""Where the parts of btreplay stand: in a checkout of its repository, or installed."""
import pathlib

TOOLS = pathlib.Path(__file__).resolve().parent.parent
TOP = TOOLS.parent
CRATES = TOP / "crates"
CRATE = CRATES / "bt_program"
# In a checkout the program is proved and built; `make install` puts it, and what it was proved with, beside tools/.
INSTALLED = TOP / "bt_program"
INSTALLED_VERSION = TOP / "version"


def is_checkout():
    """Whether the crates of the program are here."""
    return CRATE.is_dir()
