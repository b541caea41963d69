"""Certificates of version 1, as they stood when they were accepted: the files 12-archived-* in crates/check_pairs/data. Each is
named after a pair of version 2, for whose node it is. No tool writes them."""
from node_files import ROOT

PREFIX = "12-archived-"
FOLDER = ROOT / "crates" / "check_pairs" / "data"


def archived():
    """The names of all."""
    return sorted(path.name for path in FOLDER.glob(f"{PREFIX}*"))


def archived_file(name):
    return (FOLDER / f"{PREFIX}{name}.cert").read_bytes()
