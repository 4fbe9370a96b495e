"""The unit for systemd: what confines the service, and that the program takes its command line and runs as it is confined."""
import ctypes
import re
import shutil
from pathlib import Path

from checking import check
from packaged.package import OPTIONS, UNIT, Service, command_line, ran, scratch, unpacked
from serving.server import SECONDS, free_port, is_kept

SETTINGS = """
ExecStart=/usr/lib/indexd/serve /usr/bin/indexd --data /var/lib/indexd/data --mapping /etc/indexd/mapping.json $INDEXD_OPTIONS
KillMode=mixed
DynamicUser=yes
StateDirectory=indexd
StateDirectoryMode=0700
UMask=0077
ProtectSystem=strict
ProtectHome=yes
PrivateTmp=yes
PrivateDevices=yes
ProtectProc=invisible
ProcSubset=pid
ProtectClock=yes
ProtectControlGroups=yes
ProtectHostname=yes
ProtectKernelLogs=yes
ProtectKernelModules=yes
ProtectKernelTunables=yes
NoNewPrivileges=yes
CapabilityBoundingSet=
LockPersonality=yes
MemoryDenyWriteExecute=yes
RemoveIPC=yes
RestrictNamespaces=yes
RestrictRealtime=yes
RestrictSUIDSGID=yes
SystemCallArchitectures=native
SystemCallFilter=@system-service
SystemCallFilter=~@privileged @resources
RestrictAddressFamilies=AF_INET
IPAddressDeny=any
IPAddressAllow=localhost
LimitNOFILE=65536
Restart=on-failure
EnvironmentFile=/etc/indexd/options
""".split("\n")[1:-1]
# Of ten, as `systemd-analyze security` counts.
MOST_EXPOSED = 1.5
SYSTEM = ctypes.CDLL(None)
# prctl(2): a process that never gets a page that is executable and was writable. Older kernels don't know it, and go on without.
PR_SET_MDWE, PR_MDWE_REFUSE_EXEC_GAIN, PR_SET_NO_NEW_PRIVS = 65, 1, 38


def unit():
    if not unpacked():
        return
    lines = (unpacked() / UNIT).read_text().splitlines()
    for it in SETTINGS:
        check(f"the unit has {it}", "" if it in lines else "it isn't there")
    settings = [it for it in (unpacked() / OPTIONS).read_text().splitlines() if not it.startswith("#")]
    check("the options are one setting", "" if len(settings) == 1 and re.fullmatch(r'INDEXD_OPTIONS="[^"$\\]+"', settings[0]) else repr(settings))
    started()
    analyzed()


def confine():
    SYSTEM.prctl(PR_SET_NO_NEW_PRIVS, 1, 0, 0, 0)
    SYSTEM.prctl(PR_SET_MDWE, PR_MDWE_REFUSE_EXEC_GAIN, 0, 0, 0)


def started():
    """The command line of the unit, over a folder that isn't there yet and a server that is killed."""
    places = {"/usr/bin/indexd": unpacked() / "usr/bin/indexd", "/usr/lib/indexd/serve": unpacked() / "usr/lib/indexd/serve", "/var/lib/indexd/data": Path(scratch().name, "data"),
              "/etc/indexd/mapping.json": unpacked() / "etc/indexd/mapping.json"}
    for name in ("a first start", "a start after a kill"):
        port = free_port()
        words = command_line(unpacked(), port, places)
        with Service(words, port, preexec_fn=confine) as service:
            check(f"ExecStart: {name}", "" if service.listens else f"{words}: {service.said}, {service.errors_said()}")
            if service.listens and name == "a first start":
                is_kept("a write is confirmed", service.answer("PUT", "/index/_doc/1", b'{"n":1}')[0], 201)
            elif service.listens:
                is_kept("the write is found", service.answer("GET", "/index/_doc/1")[1].get("_source"), {"n": 1})
                service.process.terminate()
                is_kept("the status after SIGTERM", service.process.wait(SECONDS), 0)


def analyzed():
    """What systemd says of the unit, with the unpacked program in the place of the installed one."""
    version = re.match(r"systemd (\d+)", ran("systemd-analyze", "--version").stdout) if shutil.which("systemd-analyze") else None
    if not version or int(version[1]) < 250:
        print("systemd 250 isn't installed: what it says of the unit is left out", flush=True)
        return
    file = Path(scratch().name, "indexd.service")
    file.write_text((unpacked() / UNIT).read_text().replace("/usr/lib/indexd/serve", f"{unpacked()}/usr/lib/indexd/serve").replace(" /usr/bin/indexd", f" {unpacked()}/usr/bin/indexd"))
    said = ran("systemd-analyze", "verify", "--man=no", file)
    check("systemd finds no fault in the unit", "".join(it for it in said.stderr.splitlines(True) if "indexd" in it))
    said = ran("systemd-analyze", "security", "--offline=true", "--no-pager", f"--threshold={MOST_EXPOSED * 10:.0f}", file)
    check(f"systemd counts an exposure of at most {MOST_EXPOSED}", said.stdout[-99:] if said.returncode else "")
