#!/usr/bin/env python3
"""Makes a release twice, installs from it into empty folders, and builds and runs programs against that alone.

    python3 tools/check_release.py               uses what .ci/run built
    python3 tools/check_release.py --stand-in    with a stand-in for it, where nothing is proved: what needs an answer of the real library
                                                 is skipped

The first three programs are those of docs/tasks/install.md, with the commands and outputs that stand there. Each program gets the paths
of the installed folder and a home that has nothing else. It gets no path of the repository. Then everything is tried that `tools/install`,
`tools/uninstall` and `tools/release` have to refuse. Each refusal is one line, and leaves nothing half done. A check that needs a program
that isn't here is skipped, and the reason is said. The last line counts the checks.
"""
import gzip
import hashlib
import io
import os
import pathlib
import re
import shutil
import subprocess
import sys
import tarfile
import tempfile
import zipfile

sys.dont_write_bytecode = True

import check_abi
import man_pages
import tree
from version import version

ROOT = pathlib.Path(__file__).resolve().parent.parent
PAGE = ROOT / "docs/tasks/install.md"
SECURITY = ROOT / "docs/reference/security.md"
NUMBER = version()
SECONDS = 300
passed, faults, skips = [], [], []


def check(name, holds, told=""):
    """Counts a check. If it fails, its name is printed, with what is told of it."""
    if holds:
        passed.append(name)
    else:
        faults.append(name)
        print(f"check_release: {name}: it doesn't hold" + "".join(f"\n    {line}" for line in str(told).strip().split("\n") if line), flush=True)
    return bool(holds)


def skip(name, reason):
    skips.append(f"{name}: {reason}")


def lacks(name, *programs):
    """Whether a program is missing. If so, the check is skipped."""
    missing = next((it for it in programs if shutil.which(it) is None), None)
    if missing:
        skip(name, f"there is no {missing}")
    return missing is not None


class Room:
    """A temporary folder, with a home in which programs are built and run."""

    def __init__(self, folder):
        self.folder = pathlib.Path(folder)
        self.home = self.folder / "home"
        self.home.mkdir()
        kept = {name: os.environ[name] for name in ("PATH", "LANG") if name in os.environ}
        # (rustup keeps the compiler in a home, which isn't this one)
        rustup = os.environ.get("RUSTUP_HOME") or os.path.expanduser("~/.rustup")
        self.environment = {**kept, "HOME": str(self.home), **({"RUSTUP_HOME": rustup} if os.path.isdir(rustup) else {})}

    def run(self, *words, folder=None, **variables):
        environment = {**self.environment, **{name: str(value) for name, value in variables.items()}}
        try:
            return subprocess.run([str(it) for it in words], cwd=folder or self.home, env=environment, stdin=subprocess.DEVNULL, capture_output=True, text=True, timeout=SECONDS)
        except (OSError, subprocess.TimeoutExpired) as fault:
            return subprocess.CompletedProcess(words, 127, "", str(fault))

    def fresh(self, name):
        path = self.folder / name
        path.mkdir()
        return path


def snapshot(folder):
    """The names of all that is in a folder, with their sums."""
    found = {}
    for path in sorted(folder.rglob("*")):
        name = str(path.relative_to(folder))
        found[name] = os.readlink(path) if path.is_symlink() else path.read_bytes() if path.is_file() else "folder"
    return found


def members(path):
    """The files of an archive without its top folder, and the entries of a tar."""
    if path.suffix == ".whl":
        with zipfile.ZipFile(path) as it:
            return {name: it.read(name) for name in it.namelist()}, []
    with tarfile.open(path) as it:
        entries = it.getmembers()
        return {e.name.partition("/")[2]: b"" if e.issym() else it.extractfile(e).read() for e in entries}, entries


def unpack(path, folder):
    subprocess.run(["tar", "-xzf", path, "-C", folder], check=True)
    return next(folder.iterdir())


def check_texts():
    """Checks what needs no release: the version, the ABI, the man pages, completion and counts."""
    ran = subprocess.run([sys.executable, ROOT / "tools/version.py", "--check"], capture_output=True, text=True)
    check("every place has the version", ran.returncode == 0, ran.stderr)
    ran = subprocess.run([sys.executable, ROOT / "tools/check_abi.py"], capture_output=True, text=True)
    check("the header is what is stored of the C ABI", ran.returncode == 0, ran.stdout)
    old = check_abi.stored()
    check("a line of the C ABI can't go within a major version", check_abi.changed(old, [it for it in old if "pybuf_view(" not in it]) != [])
    pages = man_pages.pages()
    check("man pages made twice are the same", pages == man_pages.pages())
    plain = {name: text.replace("\\-", "-").replace("\\(aq", "'").replace("\\e", "\\") for name, text in pages.items()}
    lacking = [name for name in check_abi.functions(old) if f"{name}(" not in plain["pybuf.3"]]
    check("pybuf(3) has each function", not lacking, lacking)
    forms = re.findall(r"^\.B pybuf (\w+)", plain["pybuf.1"], re.MULTILINE)
    check("pybuf(1) has the forms of words", {"run", "share", "make", "array", "table", "nd"} <= set(forms), forms)
    check("pybuf-lines(5) has commands", all(f"\\fB{it}" in plain["pybuf-lines.5"] for it in ("view", "cast FORMAT", "append VALUE", "! BufferError")))
    if not lacks("man pages without a warning", "groff"):
        for name, text in pages.items():
            ran = subprocess.run(["groff", "-man", "-ww", "-Tutf8"], input=text.encode(), capture_output=True)
            check(f"groff has no warning for {name}", not ran.stderr and not ran.returncode, ran.stderr.decode()[:500])
    for name in ("pybuf", "_pybuf"):
        text = (ROOT / "tools/completion" / name).read_text()
        check(f"the completion {name} has each form", all(re.search(rf"\b{it}\b", text) for it in forms), forms)
    asked = f"source {ROOT}/tools/completion/pybuf; COMP_WORDS=(pybuf ''); COMP_CWORD=1; _pybuf; echo ${{COMPREPLY[*]}}"
    ran = subprocess.run(["bash", "-c", asked], capture_output=True, text=True)
    check("bash completes the first word", set(ran.stdout.split()) == set(forms), ran.stdout + ran.stderr)
    check_counts()
    check_gates()


def check_counts():
    """Checks the counts on the page about security."""
    text = SECURITY.read_text()
    tests = sum(it.read_text().count("#[test]") for it in ROOT.glob("crates/*/src/**/*.rt"))
    counts = {
        "cases": len(list(ROOT.glob("cases/*/*.stdout"))),
        "examples": len(list(ROOT.glob("examples/*.stdout"))),
        "lines that are no command": len((ROOT / "cases/no-commands.txt").read_bytes().splitlines()),
        "lines that are no operation": len((ROOT / "cases/no-operations.txt").read_bytes().splitlines()),
        "edits": len(list(ROOT.glob("crates/*/must-fail/*.edit"))),
        "tests": tests,
    }
    lacking = [f"{what}: {count}" for what, count in counts.items() if not re.search(rf"\b{count}\b", text)]
    check("the page on security has the counts", not lacking, lacking)


def check_gates():
    """Checks which trees count as proved."""
    kept = tree.GATE
    with tempfile.TemporaryDirectory() as room:
        tree.GATE = pathlib.Path(room, "gate.txt")
        this = tree.Tree([], "a" * 40, 0, [])
        check("a tree without a gate isn't proved", tree.gate(this).fault)
        tree.GATE.write_text(f"gate: proved commit {'a' * 40} by kit logic 0 on 2026-12-01\n7 passed, 0 failed\n")
        check("the commit of the gate is proved", tree.gate(this) == ("kit logic 0", "2026-12-01", "7 passed, 0 failed", ""))
        check("another commit isn't proved", tree.gate(this._replace(commit="b" * 40)).fault)
        check("a changed file isn't proved", tree.gate(this._replace(changed=["README.md"])).fault)
        tree.GATE.write_text("gate: proved commit")
        check("half a line of a gate proves nothing", tree.gate(this).fault)
    tree.GATE = kept


def made(room, way, folder, top=ROOT):
    """Makes a release in a folder."""
    return room.run(sys.executable, top / "tools/release", *way, folder)


def check_archives(room, way):
    """Makes two releases, which have to be the same, and gives the first one."""
    one, two = room.folder / "one", room.folder / "two"
    for folder in (one, two):
        ran = made(room, way, folder)
        if not check(f"the release {folder.name} is made", ran.returncode == 0, ran.stdout + ran.stderr):
            return None
    check("a release made twice is the same, byte for byte", snapshot(one) == snapshot(two))
    check("a release has seven files", len(list(one.iterdir())) == 7, sorted(it.name for it in one.iterdir()))
    ran = room.run("sha256sum", "-c", "SHA256SUMS", folder=one)
    check("the sums of a release are right", ran.returncode == 0, ran.stdout)
    this = tree.tree()
    proved = (one / "PROVED").read_text().startswith("proved: yes\n")
    for path in sorted(one.iterdir()):
        if path.name in ("PROVED", "SHA256SUMS"):
            continue
        files, entries = members(path)
        told = [content for name, content in files.items() if name.split("/")[-1] == "PROVED"]
        check(f"{path.name} says what was proved", told and set(told) == {(one / "PROVED").read_bytes()})
        if not entries:
            continue
        names = [it.name for it in entries]
        plain = all((it.uid, it.gid, it.uname, it.gname, it.mtime) == (0, 0, "", "", this.moment) for it in entries)
        check(f"{path.name} has names in order, the time of the commit, and no owner", names == sorted(names) and plain)
        # (the third byte behind the first is the flags: 8 is a name)
        check(f"{path.name} is packed without a name", path.read_bytes()[3] & 8 == 0)
        sums = dict(reversed(line.split("  ")) for line in files["SHA256SUMS"].decode().splitlines())
        differ = [it.name for it in entries if not it.issym() and it.name.partition("/")[2] != "SHA256SUMS" and hashlib.sha256(files[it.name.partition("/")[2]]).hexdigest() != sums.get(it.name.partition("/")[2])]
        check(f"{path.name} has a right list of sums", not differ, differ[:5])
    marks = [it.name for it in one.iterdir() if "stand-in" in it.name or "unproved" in it.name]
    check("an archive that isn't proved is marked by its name", (marks == []) == proved, marks)
    source = next(one.glob("*-source*.tar.gz"))
    check("the source archive has the files of the tree", set(members(source)[0]) == {*this.files, "PROVED", "SHA256SUMS"})
    return one


def check_source(room, one, way):
    """Checks that a release from the unpacked source archive is the same, unless only the gate makes a difference."""
    source = unpack(next(one.glob("*-source*.tar.gz")), room.fresh("source"))
    three = room.folder / "three"
    if way[0] == "--stand-in":
        ran = made(room, way, three, source)
        check("the unpacked source archive makes the same release", ran.returncode == 0 and snapshot(three) == snapshot(one), ran.stderr)
    refused(room, "the unpacked source archive isn't installed before it is built", [source / "tools/install", room.folder / "none"], "nothing is built here", room.folder / "none")
    (source / "README.md").write_text("changed")
    ran = room.run(sys.executable, "-c", "import tree; print(tree.tree().changed)", folder=source / "tools")
    check("a changed file of an unpacked source archive is seen", ran.stdout == "['README.md']\n", ran.stdout + ran.stderr)


def installed(room, name, *words):
    """Installs, and gives the folder, or None."""
    prefix = room.folder / name if isinstance(name, str) else name
    ran = room.run(words[0], prefix, *words[1:])
    good = check(f"tools/install installs {prefix.name}", ran.returncode == 0 and ran.stdout.startswith(f"install: {prefix} has pybuf {NUMBER}"), ran.stdout + ran.stderr)
    return prefix if good else None


def refused(room, name, words, told, prefix=None):
    """Makes a call that has to be refused. The refusal is one line with these words, and the folder stays as it was."""
    before = snapshot(prefix) if prefix and prefix.is_dir() else None
    ran = room.run(*words)
    after = snapshot(prefix) if prefix and prefix.is_dir() else None
    good = ran.returncode == 1 and not ran.stdout and ran.stderr.count("\n") == 1 and told in ran.stderr and before == after
    check(name, good, f"status {ran.returncode}, {'the folder is as it was' if before == after else 'the folder changed'}\n{ran.stdout}{ran.stderr}")


def page_script(heading):
    """A script that does what a reader of a section does: it writes the section's blocks into files, and runs its commands. With it
    comes what each command has to print."""
    section = PAGE.read_text().split(f"\n## {heading}\n")[1].split("\n## ")[0]
    script, wanted, file, block = "", [], "", None
    for line in section.split("\n"):
        if line.startswith("```"):
            if block is None:
                block = []
            else:
                script += f"cat > {file} <<'END_OF_BLOCK'\n" + "".join(it + "\n" for it in block) + "END_OF_BLOCK\n"
                block = None
        elif block is not None:
            block.append(line)
        elif line.startswith("    $ "):
            wanted.append("")
            script += f"echo '== {len(wanted)}'\n{line[6:]}\n"
        elif line.startswith("    "):
            wanted[-1] += line[4:] + "\n"
        elif line.startswith("Write this into `"):
            file = line.split("`")[1]
    return "set -e\n" + script, wanted


def check_page_section(room, heading, folder):
    script, wanted = page_script(heading)
    ran = room.run("bash", "-c", script, folder=folder)
    came = [part.partition("\n")[2] for part in re.split(r"^== (?=\d+\n)", ran.stdout, flags=re.MULTILINE)[1:]]
    check(f"the page: {heading}", ran.returncode == 0 and came == wanted, f"{ran.stdout}{ran.stderr}")


VERSION_IN_C = '#include <pybuf.h>\n#include <stdio.h>\nint main(void)\n{\n    puts(pybuf_version());\n    return 0;\n}\n'
VERSION_IN_RUST = 'fn main() {\n    println!("{} {}", pybuf::VERSION, pybuf::library_version());\n}\n'


def check_c(room, prefix):
    name = "a program in C"
    if lacks(f"{name}, with the static and the shared library", "gcc"):
        return
    folder = room.fresh("c")
    (folder / "told.c").write_text(VERSION_IN_C)
    ran = room.run("gcc", f"-I{prefix}/include", "told.c", f"{prefix}/lib/libpybuf.a", "-o", "static", folder=folder)
    ran = ran if ran.returncode else room.run(folder / "static")
    check(f"{name} with the static library", ran.stdout == f"{NUMBER}\n", ran.stdout + ran.stderr)
    if lacks(f"{name} with the shared library", "pkg-config"):
        return
    told = room.run("pkg-config", "--cflags", "--libs", "pybuf", PKG_CONFIG_PATH=prefix / "lib/pkgconfig").stdout.split()
    ran = room.run("gcc", "told.c", *told, "-o", "shared", folder=folder)
    ran = ran if ran.returncode else room.run(folder / "shared", LD_LIBRARY_PATH=prefix / "lib")
    check(f"{name} with the shared library", ran.stdout == f"{NUMBER}\n", ran.stdout + ran.stderr)
    needs = room.run("objdump", "-p", folder / "shared").stdout
    check("the shared library is needed by its major number", f"libpybuf.so.{NUMBER.split('.')[0]}\n" in needs, needs[:300])
    ran = room.run("pkg-config", "--modversion", "pybuf", PKG_CONFIG_PATH=prefix / "lib/pkgconfig")
    check("pkg-config says the version", ran.stdout == f"{NUMBER}\n", ran.stdout + ran.stderr)


def check_rust(room, crate, name):
    """Builds and runs a program in Rust against a crate."""
    if lacks(name, "cargo", "gcc"):
        return
    folder = room.fresh(re.sub(r"\W", "-", name))
    (folder / "src").mkdir()
    (folder / "src/main.rs").write_text(VERSION_IN_RUST)
    (folder / "Cargo.toml").write_text(f'[package]\nname = "told"\nversion = "0.1.0"\nedition = "2021"\n\n[dependencies]\npybuf = {{ path = "{crate}" }}\n')
    ran = room.run("cargo", "run", "--quiet", "--offline", folder=folder)
    check(name, ran.stdout == f"{NUMBER} {NUMBER}\n", ran.stdout + ran.stderr)


def check_python(room, prefix, name, **variables):
    ran = room.run(sys.executable, "-B", "-m", "pybuf", PYTHONPATH=prefix / "lib/pybuf/python", **variables)
    check(name, ran.stdout == f"pybuf {NUMBER}, library {NUMBER}\n", ran.stdout + ran.stderr)


def check_pip(room, archive, **variables):
    """Lets pip install an archive of the package without a network."""
    name = f"pip installs {archive.name}"
    if subprocess.run([sys.executable, "-m", "pip", "--version"], capture_output=True).returncode:
        skip(name, "there is no pip")
        return
    folder = room.folder / f"pip-{archive.suffix[1:]}"
    words = ["--no-index", "--no-deps", "--quiet", "--disable-pip-version-check", "--no-cache-dir", "--target", folder, archive]
    ran = room.run(sys.executable, "-m", "pip", "install", *words)
    ran = ran if ran.returncode else room.run(sys.executable, "-B", "-m", "pybuf", PYTHONPATH=folder, **variables)
    check(name, ran.stdout == f"pybuf {NUMBER}, library {NUMBER}\n", ran.stdout + ran.stderr)


def check_languages(room, prefix, real):
    ran = room.run(sys.executable, ROOT / "tools/check_abi.py", prefix / "lib/libpybuf.so")
    if not lacks("the symbols of the installed library", "nm", "objdump"):
        check("the installed library exports what is stored", ran.returncode == 0, ran.stdout)
    check_c(room, prefix)
    check_rust(room, prefix / "share/pybuf/rust", "a program in Rust with the installed crate")
    check_python(room, prefix, "a program in Python with the installed package")
    for heading, programs in {"Install it": [], "A first program in C": ["gcc", "pkg-config"], "A first program in Rust": ["cargo", "gcc"], "A first program in Python": []}.items():
        name = f"the page: {heading}"
        if not real:
            skip(name, "a stand-in answers no call; `.ci/run` runs it on what it built")
        elif not lacks(name, *programs) and heading != "Install it":
            check_page_section(room, heading, room.fresh(heading.replace(" ", "-")))


def check_page_install(room, one):
    """Follows the first section of the page, in a folder where the archive lies. The section unpacks it and installs it into the home."""
    folder = room.fresh("page")
    archive = next(one.glob("*-linux-gnu*.tar.gz"))
    shutil.copy(archive, folder / f"{re.sub('-(stand-in|unproved)', '', archive.name)}")
    script, wanted = page_script("Install it")
    ran = room.run("bash", "-c", script, folder=folder)
    prefix = room.home / "pybuf"
    came = [part.partition("\n")[2] for part in re.split(r"^== (?=\d+\n)", ran.stdout, flags=re.MULTILINE)[1:]]
    # (what the script says of itself isn't on the page)
    came = [re.sub(r"^install: .*\n", "", it) for it in came]
    return prefix, came == wanted, ran.stdout + ran.stderr


def check_other_archives(room, one, install):
    """Installs each of the other archives by itself."""
    wheel, crate, sdist = next(one.glob("*.whl")), one / f"pybuf-{NUMBER}.crate", one / f"pybuf-{NUMBER}.tar.gz"
    library = unpack(next(one.glob("*-linux-gnu*.tar.gz")), room.fresh("library")) / f"lib/libpybuf.so.{NUMBER}"
    prefix = installed(room, "from-wheel", install, wheel)
    if prefix:
        check_python(room, prefix, "a program in Python with the wheel")
    prefix = installed(room, "from-sdist", install, sdist)
    if prefix:
        check_python(room, prefix, "a program in Python with the sdist", PYBUF_LIBRARY=library)
        ran = room.run(sys.executable, "-B", "-m", "pybuf", PYTHONPATH=prefix / "lib/pybuf/python")
        check("a package without a library says so", ran.returncode and ran.stderr.rstrip().split("\n")[-1].startswith("ImportError: pybuf: libpybuf.so."), ran.stderr)
    prefix = installed(room, "from-crate", install, crate)
    if prefix:
        check_rust(room, prefix / "share/pybuf/rust", "a program in Rust with the crate's package file")
    check_pip(room, wheel)
    check_pip(room, sdist, PYBUF_LIBRARY=library)


def check_bad_archives(room, one, top, install):
    """Tries archives that aren't whole, or that aren't archives of pybuf."""
    none = room.folder / "none"
    archive = next(one.glob("*-linux-gnu*.tar.gz"))
    for path in (archive, next(one.glob("*.whl")), one / f"pybuf-{NUMBER}.crate"):
        cut = room.folder / f"cut-{path.name}"
        cut.write_bytes(path.read_bytes()[: path.stat().st_size // 2])
        refused(room, f"half of {path.name} is refused", [install, none, cut], "isn't a whole archive: nothing was installed", none)
    inside = gzip.decompress(archive.read_bytes())
    (room.folder / "half.tar.gz").write_bytes(gzip.compress(inside[: len(inside) // 2 // 512 * 512] + bytes(1024)))
    refused(room, "an archive without its last files is refused", [install, none, room.folder / "half.tar.gz"], "nothing was installed", none)
    empty = io.BytesIO()
    with tarfile.open(fileobj=empty, mode="w"):
        pass
    (room.folder / "empty.tar.gz").write_bytes(gzip.compress(empty.getvalue()))
    refused(room, "an empty archive is refused", [install, none, room.folder / "empty.tar.gz"], "isn't an archive of pybuf", none)
    refused(room, "an archive that isn't there is refused", [install, none, room.folder / "nothing.tar.gz"], "there is no archive", none)
    refused(room, "the source archive is refused", [install, none, next(one.glob("*-source*.tar.gz"))], "has sources alone", none)
    copy = room.folder / "copy"
    shutil.copytree(top, copy, symlinks=True)
    library = copy / "lib/libpybuf.a"
    content = library.read_bytes()
    library.write_bytes(content[:-1])
    refused(room, "a file that was cut is refused", [copy / "tools/install", none], "isn't whole, as lib/libpybuf.a differs", none)
    library.unlink()
    refused(room, "a file that is missing is refused", [copy / "tools/install", none], "isn't whole, as lib/libpybuf.a differs or is missing", none)
    library.write_bytes(content)
    (copy / "SHA256SUMS").unlink()
    refused(room, "a missing list of sums is refused", [copy / "tools/install", none], "isn't whole, as it has no SHA256SUMS", none)
    check("what was refused left no folder", not none.exists())


def check_stopped(room, install, prefix):
    """Checks that an install which is stopped, sooner or later, has done everything or nothing."""
    for number in range(6):
        copy = room.folder / f"stopped-{number}"
        shutil.copytree(prefix, copy, symlinks=True)
        before = snapshot(copy)
        running = subprocess.Popen([install, "--replace", copy], env=room.environment, stdout=subprocess.DEVNULL, stderr=subprocess.DEVNULL)
        try:
            running.wait(0.04 + 0.12 * number)
        except subprocess.TimeoutExpired:
            running.terminate()
        status = running.wait(SECONDS)
        listed = (copy / "share/pybuf/installed").read_text()
        check(f"an install that is stopped is whole or undone ({number})", snapshot(copy) == before if status else listed.startswith(f"# pybuf {NUMBER}\n"), f"status {status}")


def check_bad_folders(room, install, uninstall):
    """Tries folders that can't be written, that have the files of others, or that have another version."""
    file = room.folder / "file"
    file.write_text("")
    refused(room, "a folder below a file is refused", [install, file / "pybuf"], "can't be made or written: nothing was installed", file)
    if pathlib.Path("/proc/self").exists():
        refused(room, "a folder that nobody can write is refused", [install, "/proc/pybuf"], "can't be made or written: nothing was installed")
    if os.getuid() != 0:
        locked = room.fresh("locked")
        locked.chmod(0o555)
        refused(room, "a folder that may only be read is refused", [install, locked], "can't be made or written: nothing was installed", locked)
    other = room.fresh("other")
    (other / "bin").mkdir()
    (other / "bin/pybuf").write_text("another program")
    refused(room, "a file of somebody else is left alone", [install, other], "isn't of an installed pybuf: nothing was installed", other)
    refused(room, "nor does --replace take it", [install, "--replace", other], "isn't of an installed pybuf: nothing was installed", other)
    late = room.fresh("late")
    (late / "share").write_text("no folder")
    refused(room, "a file that can't be placed brings everything back", [install, late], "everything is as it was", late)
    old = room.folder / "an older version"
    if not installed(room, "an older version", install):
        return
    listed = old / "share/pybuf/installed"
    (old / "share/pybuf/gone").write_text("of the older version alone")
    listed.write_text(listed.read_text().replace(f"# pybuf {NUMBER}\n", "# pybuf 0.9.0\nshare/pybuf/gone\n"))
    (old / "share/mine").write_text("of somebody else")
    refused(room, "an older version is refused", [install, old], "has pybuf 0.9.0: take it away", old)
    shutil.copytree(old, room.folder / "broken", symlinks=True)
    broken = room.folder / "broken"
    shutil.rmtree(broken / "bin")
    (broken / "bin").write_text("no folder")
    refused(room, "an older version comes back if the new one can't be placed", [install, "--replace", broken], "everything is as it was", broken)
    check_stopped(room, install, old)
    ran = room.run(install, "--replace", old)
    good = ran.returncode == 0 and f"has pybuf {NUMBER} in place of 0.9.0" in ran.stdout and not (old / "share/pybuf/gone").exists()
    check("--replace puts the new version in place of the older one", good, ran.stdout + ran.stderr)
    refused(room, "nothing is taken from where nothing is installed", [uninstall, other], "has no pybuf that tools/install put there", other)
    (room.folder / "outside").write_text("stays")
    good = listed.read_text()
    listed.write_text(good + "../outside\n")
    refused(room, "a list that leads outside is refused", [uninstall, old], "isn't a list of tools/install", old)
    listed.write_text(good)
    room.run(sys.executable, "-m", "pybuf", PYTHONPATH=old / "lib/pybuf/python")
    ran = room.run(old / "share/pybuf/uninstall")
    check("an installed pybuf takes itself away, and leaves other files", ran.returncode == 0 and snapshot(old) == {"share": "folder", "share/mine": b"of somebody else"}, f"{ran.stdout}{ran.stderr}{[*snapshot(old)]}")
    for script in (install, uninstall):
        ran = room.run(script)
        check(f"tools/{script.name} without a folder says how it is called", ran.returncode == 2 and "PREFIX" in ran.stderr and not ran.stdout, ran.stderr)


def check_bad_releases(room, way):
    full = room.fresh("full")
    (full / "file").write_text("")
    refused(room, "a release into a folder with files is refused", [sys.executable, ROOT / "tools/release", *way, full], "isn't an empty folder", full)
    refused(room, "a release below a file is refused", [sys.executable, ROOT / "tools/release", *way, full / "file/out"], "can't be read or written", full)
    refused(room, "a release of what isn't built is refused", [sys.executable, ROOT / "tools/release", "--stand-in", full, room.folder / "none"], "isn't there: .ci/run builds it", full)
    if tree.gate(tree.tree()).fault:
        refused(room, "a release of a tree that no gate proved is refused", [sys.executable, ROOT / "tools/release", room.folder / "none"], "With --unproved the archives say so", full)
    check("what was refused left nothing beside the folder", not list(room.folder.glob(".release-*")) and not (room.folder / "none").exists())


def tried(room, real):
    built = room.folder / "built"
    way = ["--unproved"] if tree.gate(tree.tree()).fault else []
    if real and (ROOT / "bindings/out/skipped").is_file():
        skip("the release", (ROOT / "bindings/out/skipped").read_text().strip())
        return
    if lacks("the release", "tar", "sha256sum"):
        return
    try:
        tree.tree()
    except tree.NoTree as fault:
        skip("the release", fault)
        return
    if not real:
        if lacks("the release", "gcc", "ar"):
            return
        ran = room.run(sys.executable, ROOT / "tools/stand_in.py", built)
        if not check("the stand-in is made", ran.returncode == 0, ran.stderr):
            return
        way = ["--stand-in", built]
    one = check_archives(room, way)
    if not one:
        return
    check_source(room, one, way or ["proved"])
    prefix, as_shown, said = check_page_install(room, one)
    check("the page's first commands install", (prefix / "share/pybuf/installed").is_file(), said)
    if real:
        check("the page: Install it", as_shown, said)
    top = unpack(next(one.glob("*-linux-gnu*.tar.gz")), room.fresh("unpacked"))
    install, uninstall = top / "tools/install", top / "tools/uninstall"
    check_languages(room, prefix, real)
    check_other_archives(room, one, install)
    check_bad_archives(room, one, top, install)
    check_bad_folders(room, install, uninstall)
    check_bad_releases(room, way)
    ran = room.run(uninstall, prefix)
    check("tools/uninstall leaves an empty folder", ran.returncode == 0 and list(prefix.iterdir()) == [], f"{ran.stderr}{[*snapshot(prefix)]}")


def main(words):
    if words not in ([], ["--stand-in"]):
        print(__doc__, end="", file=sys.stderr)
        return 2
    check_texts()
    with tempfile.TemporaryDirectory(prefix="check-release-") as folder:
        tried(Room(folder), not words)
    for reason in skips:
        print(f"skipped: {reason}")
    print(f"{len(passed)} passed, {len(faults)} failed" + (f", {len(skips)} skipped" if skips else ""))
    return 1 if faults else 0


if __name__ == "__main__":
    sys.exit(main(sys.argv[1:]))
