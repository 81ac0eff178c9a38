"""The Debian package of the files of bin/package: where they lie, and what dpkg wants beside them, from debian/."""

import gzip
import hashlib
import os
import re
import subprocess
import tempfile
import time
from pathlib import Path

from repository import TOP

PAGES = "usr/share/doc/dehluvima"
UNITS = "usr/lib/systemd/system"
PLACES = {"bin/brokerd": "usr/bin/brokerd", "bin/client": "usr/bin/dehluvima-client",
          "bin/dehluvima-run": "usr/bin/dehluvima-run",
          "examples/client.bash": "usr/share/bash-completion/completions/dehluvima-client",
          "examples/logrotate": "etc/logrotate.d/dehluvima"}
CALL = re.compile(rb"(?<![\w/.-])client (?=-|[a-z]+ )")  # of a script
MAINTAINER_SCRIPTS = ("postinst", "prerm", "postrm")


def source(name):
    return (TOP / f"debian/{name}").read_text(encoding="utf-8")


def changelog(version, built_from, seconds):
    """The changelog that Debian asks for: it has this version alone."""
    maintainer = re.search(r"^Maintainer: (.*)$", source("control"), re.MULTILINE)[1]
    date = time.strftime("%a, %d %b %Y %H:%M:%S +0000", time.gmtime(seconds))
    made_of = f"commit {built_from}".replace(", and", ",\n    and")
    said = f"dehluvima ({version}) unstable; urgency=medium\n\n  * Built from {made_of}.\n\n -- {maintainer}  {date}\n"
    return gzip.compress(said.encode(), 9, mtime=0)


def called_as_installed(data):
    """A script that calls the client by the name that it has here."""
    return CALL.sub(b"dehluvima-client ", data)


def installed(files, version, built_from, seconds):
    """What is installed, by its paths, from the files of the archive."""
    placed = {}
    for path, (data, mode) in files.items():
        if path in ("dehluvima.service", "dehluvima-backup.service", "dehluvima-backup.timer"):
            placed[f"{UNITS}/{path}"] = (data.replace(b"/usr/local/bin/", b"/usr/bin/"), mode)
        elif path in PLACES:
            placed[PLACES[path]] = (data, mode)
        elif path.startswith("docs/"):
            placed[f"{PAGES}/{Path(path).name}"] = (data.replace(b"](../examples/", b"](examples/"), mode)
        elif path.endswith(".sh"):
            placed[f"{PAGES}/{path}"] = (called_as_installed(data), mode)
        elif path != "SHA256SUMS":  # dpkg keeps sums of its own
            placed[f"{PAGES}/{path}"] = (data, mode)
    placed[f"{PAGES}/copyright"] = (source("copyright").encode(), 0o644)
    placed[f"{PAGES}/changelog.gz"] = (changelog(version, built_from, seconds), 0o644)
    return placed


def control_files(placed, version):
    """What dpkg reads: the fields, the sums, and the scripts that it runs."""
    kilobytes = sum(-(-len(data) // 1024) for data, _ in placed.values())
    fields = source("control").replace("\n", f"\nVersion: {version}\nInstalled-Size: {kilobytes}\n", 1)
    sums = "".join(f"{hashlib.md5(data).hexdigest()}  {path}\n" for path, (data, _) in sorted(placed.items()))
    settings = "".join(f"/{path}\n" for path in sorted(placed) if path.startswith("etc/"))
    control = {"DEBIAN/control": (fields.encode(), 0o644), "DEBIAN/md5sums": (sums.encode(), 0o644),
               "DEBIAN/conffiles": (settings.encode(), 0o644)}
    return control | {f"DEBIAN/{name}": (source(name).encode(), 0o755) for name in MAINTAINER_SCRIPTS}


def lay_out(files, folder, seconds):
    """Writes files to a folder, with modes and times that depend on nothing else."""
    for path, (data, mode) in files.items():
        file = folder / path
        file.parent.mkdir(parents=True, exist_ok=True)
        file.write_bytes(data)
        file.chmod(mode)
    for it in (folder, *folder.rglob("*")):
        if it.is_dir():
            it.chmod(0o755)
        os.utime(it, (seconds, seconds))


def write_deb(files, version, built_from, seconds, folder):
    """Makes the Debian package of the files of the archive, and answers its path."""
    placed = installed(files, version, built_from, seconds)
    to = folder / f"dehluvima_{version}_amd64.deb"
    with tempfile.TemporaryDirectory() as room:
        lay_out(placed | control_files(placed, version), Path(room), seconds)
        words = ["dpkg-deb", "--root-owner-group", "-Zxz", "--build", room, to]
        environment = {**os.environ, "SOURCE_DATE_EPOCH": str(seconds)}
        subprocess.run(words, env=environment, capture_output=True, text=True, check=True)
    return to
