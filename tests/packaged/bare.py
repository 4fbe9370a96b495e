"""The package in a bare Debian: installed, served from, upgraded, removed and purged, without systemd and with a stand-in for it."""
import os
import shutil
import subprocess
import tempfile
import time
from pathlib import Path

from checking import check
from packaged.package import OPTIONS, Service, command_line, failure, package, ran, scratch
from serving.server import free_port, is_kept

SUITE = "bookworm"
KEPT = Path(tempfile.gettempdir()) / f"indexd-bare-{SUITE}"
MAKING_SECONDS, INSTALLING_SECONDS = 120, 60
# What is mounted or started so is gone once its command has ended, however that ends.
APART = ("unshare", "--mount", "--pid", "--fork", "--kill-child")
SETTINGS = {"PATH": "/usr/sbin:/usr/bin:/sbin:/bin", "LC_ALL": "C", "DEBIAN_FRONTEND": "noninteractive"}
USER = 61184
# What dpkg keeps of its own work.
OF_DPKG = ("var/log/", "var/lib/dpkg/", "var/cache/")
STAND_IN = """#!/bin/sh
echo "$*" >>/said
case "$*" in *is-enabled*) echo enabled ;; esac
"""


def bare():
    if not package():
        return
    debian, why = bare_debian()
    if why:
        print(f"the bare Debian is left out: {why}", flush=True)
        return
    root = Path(scratch().name, "debian")
    check("the bare Debian is copied", failure(ran("cp", "-a", "--reflink=auto", debian, root, seconds=INSTALLING_SECONDS)))
    shutil.copy(package(), root / "indexd.deb")
    (root / "var/lib/private").mkdir()
    before = names_in(root)
    dpkg(root, "-i", "/indexd.deb")
    is_kept("dpkg's word on the package", inside(root, "dpkg-query", "-W", "-f", "${db:Status-Status}", "indexd").stdout, "installed")
    is_kept("dpkg's word on its files", inside(root, "dpkg", "-V", "indexd").stdout, "")
    check("the service waits for its mapping", "it is enabled" if (root / "etc/systemd/system/multi-user.target.wants/indexd.service").is_symlink() else "")
    served(root)
    upgraded(root)
    removed(root)
    is_kept("what a purge leaves", names_in(root) ^ before, set())
    under_systemd(root)
    (root / "usr/bin/deb-systemd-helper").unlink()
    (root / "usr/bin/deb-systemd-invoke").unlink()
    dpkg(root, "-i", "/indexd.deb")
    dpkg(root, "--purge", "indexd")


def bare_debian():
    """The folder of a bare Debian, which is made once and kept; or why there is none."""
    if os.geteuid() or failure(ran(*APART, "true")):
        return None, "only root may make it"
    if KEPT.exists() or KEPT.is_symlink():
        is_own = not KEPT.is_symlink() and KEPT.stat().st_uid == 0 and KEPT.stat().st_mode & 0o077 == 0
        return KEPT / "root", "" if is_own else f"{KEPT} is there, and isn't root's alone"
    end = time.monotonic() + MAKING_SECONDS
    if not shutil.which("debootstrap") and shutil.which("apt-get"):
        for words in (("update",), ("install", "-y", "--no-install-recommends", "debootstrap")):
            quietly(end, "apt-get", *words, env={**os.environ, "DEBIAN_FRONTEND": "noninteractive"})
    if not shutil.which("debootstrap"):
        return None, "debootstrap isn't installed and can't be had"
    return make_debian(end)


def make_debian(end):
    making = tempfile.mkdtemp(prefix=KEPT.name + "-", dir=KEPT.parent)
    try:
        why = quietly(end, *APART, "--mount-proc", "debootstrap", "--variant=minbase", SUITE, f"{making}/root")
        if not why:
            os.rename(making, KEPT)
    finally:
        shutil.rmtree(making, ignore_errors=True)
    return KEPT / "root", why and f"debootstrap: {why}"


def quietly(end, *words, **more):
    """Why a command failed, or hadn't ended by then."""
    try:
        return failure(ran(*words, seconds=max(end - time.monotonic(), 1), **more))
    except subprocess.TimeoutExpired:
        return "it takes too long"


def inside(root, *words):
    return ran(*APART, "chroot", root, *words, seconds=INSTALLING_SECONDS, env=SETTINGS)


def dpkg(root, *words):
    check(f"dpkg {' '.join(words)}", failure(inside(root, "dpkg", *words)))


def names_in(root):
    found = (str(it.relative_to(root)) for it in root.rglob("*"))
    return {it for it in found if not it.startswith(OF_DPKG)}


def service(root):
    """The service as the unit starts it, under a user of its own that may nothing."""
    port = free_port()
    user = ("setpriv", f"--reuid={USER}", f"--regid={USER}", "--clear-groups", "--no-new-privs", "--bounding-set=-all")
    return Service(["chroot", root, *user, *command_line(root, port, {})], port, env=SETTINGS)


def served(root):
    """A write, a kill, and the write again, in a folder as systemd makes it. (Only a mount of systemd's leads there; here all may pass the folder above it.)"""
    state = root / "var/lib/private/indexd"
    state.mkdir(0o700)
    os.chown(state, USER, USER)
    (root / "var/lib/indexd").symlink_to("private/indexd")
    with service(root) as it:
        check("the installed service starts", "" if it.listens else f"{it.said}, {it.errors_said()}")
        is_kept("a write to it is confirmed", it.answer("PUT", "/index/_doc/1?refresh=true", b'{"n":1}')[0], 201)
    finds_the_write(root, "after a kill", 1)


def finds_the_write(root, when, copies):
    with service(root) as it:
        is_kept(f"the write {when}", it.answer("GET", "/index/_doc/1")[1].get("_source"), {"n": 1})
        # (other copies join after the start, and a write waits for them)
        is_kept(f"copies {when}", it.answer("PUT", "/index/_doc/2", b"{}")[1].get("_shards", {}).get("total"), copies)


def upgraded(root):
    """The same package again keeps the settings that an administrator has changed, and the data."""
    options = root / OPTIONS
    changed = options.read_text().replace("--copies 1", "--copies 2")
    options.write_text(changed)
    dpkg(root, "-i", "/indexd.deb")
    is_kept("changed options after an upgrade", options.read_text(), changed)
    finds_the_write(root, "after an upgrade", 2)


def removed(root):
    options = (root / OPTIONS).read_text()
    dpkg(root, "--remove", "indexd")
    check("a removal removes the program", "it is there" if (root / "usr/bin/indexd").exists() else "")
    is_kept("options after a removal", (root / OPTIONS).read_text(), options)
    check("the data stays after a removal", "" if (root / "var/lib/private/indexd/data/copy-1.rsx").is_file() else "it is gone")
    (root / "etc/indexd/own.json").write_text("{}")
    dpkg(root, "--purge", "indexd")


def under_systemd(root):
    """What the scripts ask of systemd, whose commands a stand-in writes down."""
    (root / "run/systemd/system").mkdir(parents=True)
    systemctl, said = root / "usr/bin/systemctl", root / "said"
    systemctl.write_text(STAND_IN)
    systemctl.chmod(0o755)
    installs = ("-i", "/indexd.deb")
    for name, words, wanted in (("an installation", installs, ["daemon-reload"]), ("an upgrade", installs, ["daemon-reload", "try-restart"]),
                                ("a removal", ("--remove", "indexd"), ["stop", "daemon-reload"]), ("a purge", ("--purge", "indexd"), [])):
        said.write_text("")
        dpkg(root, *words)
        asked = [verb for line in said.read_text().splitlines() for verb in line.split() if verb in ("start", "stop", "restart", "try-restart", "daemon-reload")]
        is_kept(f"what {name} asks of systemd", asked, wanted)
