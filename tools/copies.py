"""Copies of the repository's files, in which a tool tries what it changes. What rt made beside the sources stays behind: it begins by itself with what it
kept of the same crates in another checkout on this machine, and `rt ci --anew` with nothing."""
import pathlib
import shutil

# What stands at the top and no tool needs in its copy.
LEFT_BEHIND = {".git", "compare", "target"}


def crate(folder, copy):
    """The crate in this folder."""
    shutil.copytree(folder, copy, ignore=lambda at, names: {"out"} if pathlib.Path(at) == pathlib.Path(folder) else set())


def repository(root, copy):
    """All of it, and each crate as above."""
    def ignored(at, _):
        place = pathlib.Path(at).relative_to(root).parts
        return LEFT_BEHIND if not place else {"out"} if len(place) == 2 and place[0] == "crates" else set()

    shutil.copytree(root, copy, ignore=ignored, symlinks=True)
