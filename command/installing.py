"""Puts the command into a folder for commands, and what belongs to it beside that folder, under lib/ and share/; and takes it away again."""
import contextlib, os, pathlib, shutil

from console import Fault, say, shown
from places import NAME, PROVED, PROVED_STAMP, TOP
from proving import prove

# what was installed, by its paths from the folder that it was installed under
LIST = "lib/dlcheck/installed"


def install(program, folder):
    """`--install`."""
    try:
        pathlib.Path(folder).mkdir(parents=True, exist_ok=True)
        # where a link leads, since the command looks from there for what belongs to it
        commands = pathlib.Path(folder).resolve(strict=True)
    except OSError as fault:
        raise Fault(f"could not make the folder {shown(folder)}: {fault.strerror}") from None
    prefix = commands.parent
    if prefix == TOP.resolve():
        raise Fault(f"what belongs to the command would stand among the sources here, beside {shown(folder)}: take another folder")
    prove(program)
    try:
        files = copy_all(commands, prefix)
    except OSError as fault:
        raise Fault(f"could not copy the command and what belongs to it to {shown(str(prefix))}: {fault.strerror or fault}") from None
    say(f"installed: {shown(str(commands / 'dlcheck'))}, and {len(files) - 1} files under {shown(str(prefix))}/lib and {shown(str(prefix))}/share; "
        f"'{NAME} --uninstall {shown(folder)}' takes them away")


def files_of(commands, prefix):
    """What is copied: each file of the repository with its place below the prefix."""
    yield TOP / "dlcheck", commands / "dlcheck"
    yield PROVED, prefix / "lib/dlcheck/dlcheck"
    yield PROVED_STAMP, prefix / "lib/dlcheck/proved-sources"
    for folder, pattern, ends, below in (("reader", "*", {".py", ".html", ".css", ".js"}, "dlcheck/reader"), ("command", "*", {".py"}, "dlcheck/command"), ("port", "*", {".py"}, "dlcheck/port"), ("", "README.md", {".md"}, "doc/dlcheck"),
                                         ("docs", "*", {".md"}, "doc/dlcheck/docs"), ("examples", "*", {".csp"}, "doc/dlcheck/examples"), ("share", "**/*", None, "")):
        for file in sorted((TOP / folder).glob(pattern)):
            if file.is_file() and (not ends or file.suffix in ends):
                yield file, prefix / "share" / below / (file.relative_to(TOP / "share") if folder == "share" else file.name)


def copy_all(commands, prefix):
    """Copies each file beside its place and moves it there, for all to read whatever the mask is; the paths."""
    copied = []
    for source, target in files_of(commands, prefix):
        make_folders(target.parent)
        beside = target.with_name(f"{target.name}.{os.getpid()}")
        try:
            shutil.copyfile(source, beside)
            os.chmod(beside, 0o755 if os.access(source, os.X_OK) else 0o644)
            os.replace(beside, target)
        finally:
            beside.unlink(missing_ok=True)
        copied.append(target)
    listed = prefix / LIST
    listed.write_bytes(b"".join(os.fsencode(os.path.relpath(target, prefix)) + b"\0" for target in [*copied, listed]))
    os.chmod(listed, 0o644)
    return copied


def make_folders(folder):
    """Makes a folder and those above it, for all to read."""
    if not folder.is_dir():
        make_folders(folder.parent)
        folder.mkdir()
        os.chmod(folder, 0o755)


def uninstall(_, folder):
    """`--uninstall`: takes away what was installed, and the folders that are then empty."""
    prefix = pathlib.Path(folder).resolve().parent
    try:
        paths = [prefix / os.fsdecode(path) for path in (prefix / LIST).read_bytes().split(b"\0") if path]
        for path in paths:
            path.unlink(missing_ok=True)
    except OSError as fault:
        raise Fault(f"nothing is installed in {shown(folder)}, or it could not be taken away: {fault.strerror}") from None
    for parent in sorted({parent for path in paths for parent in path.parents if parent.is_relative_to(prefix) and parent != prefix}, key=lambda it: -len(it.parts)):
        with contextlib.suppress(OSError):
            parent.rmdir()
    say(f"took {len(paths)} files away")
