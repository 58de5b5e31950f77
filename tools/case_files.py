"""Writes the files of cases that a script makes, and removes all other files from their folders."""
import sys


def content(made):
    """The bytes of a file that was made as a text or as bytes."""
    return made.encode() if isinstance(made, str) else made


def put(made, top):
    """Writes the files that were made, by their paths below `top`, where they differ, and takes away what else lies in
    their folders, but not in `top` itself. With the word `--check` nothing is written, and the status is 1 where a file
    would change."""
    beside = {path for folder in {path.parent for path in made} - {top} for path in folder.glob("*")}
    old = {path for path in {*made, *beside} if path.is_file()}
    changed = sorted(path for path in {*made, *old} if path not in old or path not in made or path.read_bytes() != content(made[path]))
    for path in changed:
        print(path.relative_to(top.parent))
        if "--check" in sys.argv:
            continue
        if path in made:
            path.parent.mkdir(parents=True, exist_ok=True)
            path.write_bytes(content(made[path]))
        else:
            path.unlink()
    print(f"{len(made)} files, {len(changed)} of them changed")
    return 1 if changed and "--check" in sys.argv else 0
