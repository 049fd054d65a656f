"""The seal of an unpacked layer: a sum over its tree, whose bytes `tools/layer-seal` describes."""

import hashlib
import os
import stat

LONGEST_PATH = 4096
LARGEST_FILE = 33_554_432
SEALED_FILES = {
    b"var/lib/dpkg/status",
    b"lib/apk/db/installed",
    b"usr/lib/apk/db/installed",
    b"etc/os-release",
    b"usr/lib/os-release",
}


class CannotSeal(Exception):
    """A folder has what cvwatch does not read, or changes meanwhile."""


def is_status_file(parts):
    """Whether a path lies right in the folder of status files, and is no list of checksums."""
    return parts[:-1] == [b"var", b"lib", b"dpkg", b"status.d"] and not parts[-1].endswith(b".md5sums")


def is_npm_file(parts):
    """Whether a path is the package.json of a package right in a node_modules, or in a scope there."""
    if parts[-1] != b"package.json":
        return False
    if parts[-3:-2] == [b"node_modules"]:
        return True
    return parts[-4:-3] == [b"node_modules"] and parts[-3].startswith(b"@") and len(parts[-3]) > 1


def is_sealed_place(path):
    """Whether a file at this path is summed with its bytes."""
    parts = path.split(b"/")
    return path in SEALED_FILES or is_status_file(parts) or is_npm_file(parts)


def check(path):
    """Fails where cvwatch does not read this path."""
    try:
        path.decode("utf-8")
    except UnicodeDecodeError:
        raise CannotSeal(f"not UTF-8: {path!r}") from None
    if len(path) > LONGEST_PATH:
        raise CannotSeal(f"more than {LONGEST_PATH} bytes: {path!r}")


def entries_of(folder):
    """The paths below a folder with what they are, in the order of the paths by their components."""
    found = []
    waiting = [b""]
    while waiting:
        above = waiting.pop()
        for entry in os.scandir(os.path.join(folder, above)):
            path = above + b"/" + entry.name if above else entry.name
            check(path)
            found.append((path, entry.stat(follow_symlinks=False)))
            if entry.is_dir(follow_symlinks=False):
                waiting.append(path)
    return sorted(found, key=lambda item: item[0].split(b"/"))


def content_of(folder, path, size):
    """The bytes of a package file, which has this size."""
    with open(os.path.join(folder, path), "rb") as file:
        content = file.read(size + 1)
    if len(content) != size:
        raise CannotSeal(f"changed while it was read: {path!r}")
    return content


def seal_of(folder):
    """The seal of a folder of this name, which is of bytes."""
    seal = hashlib.sha256(b"cvwatch seal 1\n")
    for path, found in entries_of(folder):
        kind = b"d" if stat.S_ISDIR(found.st_mode) else b"f" if stat.S_ISREG(found.st_mode) else b"o"
        seal.update(kind + len(path).to_bytes(4, "big") + path)
        if kind == b"f":
            seal.update(found.st_size.to_bytes(8, "big"))
            if is_sealed_place(path) and found.st_size <= LARGEST_FILE:
                seal.update(content_of(folder, path, found.st_size))
    return f"sha256:{seal.hexdigest()}"
