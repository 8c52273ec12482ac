"""Where the command, the program and what belongs to them stand: in the repository, or where they were installed."""
import os, pathlib

# the folder that has command/ and reader/
HOME = pathlib.Path(__file__).resolve().parent.parent
IS_REPOSITORY = (HOME / "crates.txt").is_file()
# in the repository its top; else what the command was installed under
TOP = HOME if IS_REPOSITORY else HOME.parent.parent
CRATE = TOP / "crates/dlcheck"
PROVED = CRATE / "out/dlcheck" if IS_REPOSITORY else TOP / "lib/dlcheck/dlcheck"
PROVED_STAMP = PROVED.parent / "proved-sources"
READER = HOME / "reader/reader.py"
NAME = "./dlcheck" if IS_REPOSITORY else "dlcheck"


def kept_folders():
    """Where the unproved program may be kept: beside the proved one, or in the user's cache where the repository can't be written."""
    folders = [CRATE / "out/unproved"]
    cache = os.environ.get("XDG_CACHE_HOME") or (os.environ["HOME"] + "/.cache" if os.environ.get("HOME") else "")
    if cache.startswith("/"):
        folders.append(pathlib.Path(cache, "dlcheck", str(TOP).replace("/", "%")))
    return folders
