"""What pages name and the tree has: definitions, functions, edits and files."""
import pathlib
import re

ROOT = pathlib.Path(__file__).resolve().parent.parent
CRATES = ROOT / "crates"
DEFINED = r"^\s*(?:pub |abbrev |unfoldable |record |data )*{}(?= :|\s*\(|\s*\{{|$)"
# Names in backquotes, then their file or files in brackets: `a`, `b` (crate/specs/File) or (crate/specs/File, Other).
NAMED = re.compile(r"((?:`[^`]+`(?:, )?)+) \(((?:[\w-]+/)+[\w./-]+(?:, [\w./-]+)*)\)")
# The crates, in the order of crates.txt.
NAMES = re.findall(r"^(\w+)(?: staticlib)?:", (ROOT / "crates.txt").read_text(), re.M)


def named(text):
    """Each name that has files of a crate after it in brackets, with those files as the page writes them."""
    for names, paths in NAMED.findall(text):
        first, *others = paths.split(", ")
        if first.split("/")[0] not in NAMES:
            continue
        folder = first.rpartition("/")[0]
        files = [first, *(other if "/" in other else f"{folder}/{other}" for other in others)]
        for name in re.findall(r"`([^` ]+)[^`]*`", names):
            yield name, files


def files_of(path):
    """The files that a path of a page means: one, with or without its ending, or those below a folder."""
    file = CRATES / path
    if file.is_dir():
        return list(file.rglob("*.antt"))
    return [one for one in (file, file.with_suffix(".antt")) if one.is_file()]


def defines(file, name):
    text = file.read_text()
    if file.suffix == ".antt":
        return re.search(DEFINED.format(re.escape(name)), text, re.M) is not None
    return re.search(rf"\b{re.escape(name)}\b", text) is not None


def fault_of_name(name, paths):
    """Why none of the files defines a name, or nothing."""
    files = []
    for path in paths:
        found = files_of(path)
        if not found:
            return f"no file {path}"
        files += found
    return None if any(defines(file, name) for file in files) else f"{', '.join(paths)} has no {name}"


def has_edit(crate, label):
    return (CRATES / crate / "must-fail" / f"{label}.edit").exists()


def has_function(path):
    """Whether a crate declares what a path such as crate::function or crate::Type::method ends in."""
    crate, *_, last = path.split("::")
    pattern = re.compile(rf"\bfn {re.escape(last)}\b")
    return any(pattern.search(file.read_text()) for file in (CRATES / crate / "src").glob("*.rt"))
