"""What is in the package: equal builds, fields, files with their owners and modes, and the program with its examples."""
import gzip
import os
import re
import shutil
from pathlib import Path

from checking import ROOT, check
from packaged.package import OPTIONS, UNIT, build, failure, package, ran, scratch, unpacked
from serving.server import free_port, is_kept

RELEASED = ROOT / "release/indexd"
DOCUMENTS = "usr/share/doc/indexd"
PAGE, MANUAL = ROOT / "docs/indexd.1", "usr/share/man/man1/indexd.1.gz"
SCRIPTS = ("postinst", "prerm", "postrm")


def built():
    if not unpacked():
        return
    again = build(Path(scratch().name, "again"), mask=0o077, TZ="Asia/Tokyo", LC_ALL="C.UTF-8")
    check("two builds are equal", "" if again and again.read_bytes() == package().read_bytes() else "they differ")
    later = build(Path(scratch().name, "later"), SOURCE_DATE_EPOCH="4000000000")
    is_kept("the times of a package with SOURCE_DATE_EPOCH", later and times(later), {("2096-10-02", "07:06")})
    for words, status in ((("a", "b"), 2), (("--help",), 2), ((scratch().name + "/none",), 1)):
        is_kept(f"packaging/deb {' '.join(words)[-9:]}", ran(ROOT / "packaging/deb", *words).returncode, status)
    fields()
    scripts()
    files()
    program()


def fields():
    version = ran(RELEASED, "--version").stdout.split()[1]
    is_kept("the package's name", package().name, f"indexd_{version}_amd64.deb")
    # What the program is linked with stands in it as plain names.
    linked = RELEASED.read_bytes()
    is_kept("the program's libraries", {*re.findall(rb"[\w+.-]+\.so(?:\.\d+)*\0", linked)}, {b"libc.so.6\0", b"ld-linux-x86-64.so.2\0"})
    library = max(tuple(map(int, it)) for it in re.findall(rb"GLIBC_(\d+)\.(\d+)", linked))
    wanted = {"Package": "indexd", "Version": version, "Architecture": "amd64", "Section": "database", "Priority": "optional",
              "Depends": f"libc6 (>= {library[0]}.{library[1]})"}
    for name, value in wanted.items():
        is_kept(f"the field {name}", ran("dpkg-deb", "-f", package(), name).stdout.strip(), value)
    for name in ("Maintainer", "Description"):
        check(f"the field {name}", "" if ran("dpkg-deb", "-f", package(), name).stdout.strip() else "it is empty")
    size = sum((it.stat().st_size + 1023) // 1024 if it.is_file() else 1 for it in unpacked().rglob("*"))
    is_kept("the field Installed-Size", ran("dpkg-deb", "-f", package(), "Installed-Size").stdout.strip(), str(size))


def scripts():
    folder = Path(scratch().name, "fields")
    check("the fields are unpacked", failure(ran("dpkg-deb", "-e", package(), folder)))
    is_kept("the files that dpkg reads", {it.name for it in folder.iterdir()}, {"control", "conffiles", "md5sums", *SCRIPTS})
    for name in SCRIPTS:
        check(f"sh reads {name}", failure(ran("sh", "-n", folder / name)))
        is_kept(f"the mode of {name}", (folder / name).stat().st_mode & 0o7777, 0o755)
    is_kept("conffiles", {*(folder / "conffiles").read_text().split()}, {"/etc/indexd/mapping.json", "/" + OPTIONS})
    check("the sums of the files", failure(ran("md5sum", "--strict", "--quiet", "-c", folder / "md5sums", cwd=unpacked())))


def listed_in(package):
    """The modes, the owner, the length, the day, the hour and the name of each file and folder."""
    return [line.split(None, 5) for line in ran("dpkg-deb", "-c", package, env={**os.environ, "TZ": "UTC"}).stdout.splitlines()]


def times(package):
    return {(day, hour) for _, _, _, day, hour, _ in listed_in(package)}


def wanted_files():
    """What the package has to have: each path with its mode, and the file of the repository that it is equal to, where there is one."""
    found = {"usr/bin/indexd": (0o755, RELEASED), "usr/lib/indexd/serve": (0o755, ROOT / ".ci/serve"), UNIT: (0o644, ROOT / "packaging/debian/indexd.service"), MANUAL: (0o644, None)}
    found |= {f"etc/indexd/{it}": (0o644, ROOT / "packaging/debian" / it) for it in ("mapping.json", "options")}
    found |= {f"{DOCUMENTS}/{it}": (0o644, ROOT / "packaging/debian" / it) for it in ("README.Debian", "copyright")}
    documents = [ROOT / "README.md", *(it for it in (ROOT / "docs").iterdir() if it.suffix in (".md", ".png", ".svg"))]
    found |= {f"{DOCUMENTS}/{it.relative_to(ROOT)}": (0o644, it) for it in documents}
    examples = [it for it in (ROOT / "examples").iterdir() if it.is_file()]
    found |= {f"{DOCUMENTS}/{it.relative_to(ROOT)}": (0o755 if os.access(it, os.X_OK) else 0o644, it) for it in examples}
    found[f"{DOCUMENTS}/changelog.Debian.gz"] = (0o644, None)
    return found


def files():
    wanted, tree = wanted_files(), unpacked()
    there = {str(it.relative_to(tree)) for it in tree.rglob("*") if not it.is_dir()}
    is_kept("files that are missing, or too many", there ^ {*wanted}, set())
    listed = listed_in(package())
    is_kept("who owns the files", {owner for _, owner, *_ in listed}, {"root/root"})
    is_kept("how many times the files have", len(times(package())), 1)
    is_kept("modes of folders", {modes for modes, *_ in listed if modes.startswith("d")}, {"drwxr-xr-x"})
    for path, (mode, source) in wanted.items():
        file = tree / path
        if file.is_file():
            is_kept(f"the mode of {path}", oct(file.stat().st_mode & 0o7777), oct(mode))
            check(path, "" if source is None or file.read_bytes() == source.read_bytes() else f"it isn't {source}")
    version = ran(RELEASED, "--version").stdout.split()[1]
    for path, text in ((MANUAL, PAGE.read_text()), (f"{DOCUMENTS}/changelog.Debian.gz", f"indexd ({version}) ")):
        check(f"{path} begins as it has to", "" if gzip.decompress((tree / path).read_bytes()).decode().startswith(text) else "it begins otherwise")


def program():
    """The packaged program, and the examples as README.md and README.Debian say."""
    tree, folder = unpacked() / "usr/bin/indexd", unpacked() / DOCUMENTS
    is_kept("the packaged program's version", ran(tree, "--version").stdout, ran(RELEASED, "--version").stdout)
    shown = re.search(r"\$ \./indexd (replay \S+)\n((?: {4}[^$].*\n)+)", (folder / "README.md").read_text())
    lines = "".join(it.strip() + "\n" for it in shown[2].splitlines())
    is_kept("the first example of README.md", ran(tree, *shown[1].split(), cwd=folder).stdout, lines)
    if not shutil.which("curl"):
        print("curl isn't installed: examples/books.sh is left out", flush=True)
        return
    port = str(free_port())
    walked = ran(folder / "examples/books.sh", port, env={**os.environ, "INDEXD_PROGRAM": str(tree)})
    is_kept("examples/books.sh", walked.stdout + walked.stderr, (folder / "examples/books.out").read_text().replace(":9200", f":{port}", 1))
