#!/usr/bin/env python3
"""Builds a Debian package of the program: packaging/deb.py [--program F] [--to FOLDER] [--version V]

`make deb` runs it, after `make install`. The package has the program, the unit of `examples/` with the package's paths
and a user of its own, a profile that an upgrade keeps, a folder for packages, and the documents and examples. Its
version is the one that the program prints, if none is given. The server keeps what it publishes in `/var/lib/omaha`,
beside the packages. Prints the path of what it wrote.
"""

import argparse
import pathlib
import shutil
import subprocess
import tempfile

HERE = pathlib.Path(__file__).resolve().parent
TOP = HERE.parent
PACKAGES = "var/lib/omaha/packages"

CONTROL = """Package: omaha
Version: {version}
Architecture: {architecture}
Maintainer: the owner of this package <root@localhost>
Section: net
Priority: optional
Depends: libc6, systemd
Installed-Size: {size}
Description: update server for Omaha protocol 3.1
 It brings clients of many old versions to the release that their cohort is meant to have, by full and differential
 packages, along the chain of fewest bytes. That its replies are right is proved.
"""

# the unit's lines: what `make install` has, and what the package has
UNIT = [
    ("# A systemd unit for omaha: copy it to /etc/systemd/system, then `systemctl enable --now omaha`.", "# A systemd unit for omaha: `systemctl enable --now omaha`."),
    ("/usr/local/bin/omaha", "/usr/bin/omaha"),
    ("/srv/omaha", f"/{PACKAGES}"),
    ("DynamicUser=yes", "User=omaha"),
    ("StateDirectory=omaha", f"StateDirectory=omaha\nReadOnlyPaths=/{PACKAGES}"),
]


def unit():
    """The unit of `examples/` for the package's paths."""
    lines = (TOP / "examples" / "omaha.service").read_text()
    for old, new in UNIT:
        if old not in lines:
            raise SystemExit(f"packaging/deb.py: examples/omaha.service has no {old}")
        lines = lines.replace(old, new)
    return lines


def put(room, path, source, mode=0o644):
    """Puts a file or a string at its place in the package."""
    target = room / path
    target.parent.mkdir(parents=True, exist_ok=True)
    target.write_bytes(source.read_bytes() if isinstance(source, pathlib.Path) else source.encode())
    target.chmod(mode)


def fill(room, program, version):
    """Puts all that the package has into a folder."""
    put(room, "usr/bin/omaha", program, 0o755)
    put(room, "usr/lib/systemd/system/omaha.service", unit())
    put(room, "usr/lib/sysusers.d/omaha.conf", HERE / "omaha.sysusers")
    put(room, "etc/omaha/profile.toml", HERE / "profile.toml")
    (room / PACKAGES).mkdir(parents=True)
    documents = room / "usr/share/doc/omaha"
    for name in ("README.md", "CHANGELOG.md", "SECURITY.md"):
        put(documents, name, TOP / name)
    for folder in ("docs", "examples"):
        shutil.copytree(TOP / folder, documents / folder, ignore=shutil.ignore_patterns("__pycache__"))
    put(room, "DEBIAN/conffiles", "/etc/omaha/profile.toml\n")
    for name in ("postinst", "prerm", "postrm"):
        put(room, f"DEBIAN/{name}", HERE / name, 0o755)
    size = sum(path.stat().st_size for path in room.rglob("*") if path.is_file()) // 1024
    architecture = subprocess.run(["dpkg", "--print-architecture"], check=True, capture_output=True, text=True).stdout.strip()
    put(room, "DEBIAN/control", CONTROL.format(version=version, architecture=architecture, size=size))
    return f"omaha_{version}_{architecture}.deb"


def version_of(program):
    """The version that the program prints after its name."""
    return subprocess.run([program, "--version"], check=True, capture_output=True, text=True).stdout.split()[1]


def main():
    parser = argparse.ArgumentParser(description=__doc__.splitlines()[0])
    parser.add_argument("--program", type=pathlib.Path, default=TOP / "crates" / "omaha" / "out" / "omaha")
    parser.add_argument("--to", type=pathlib.Path, default=TOP / "out")
    parser.add_argument("--version")
    given = parser.parse_args()
    if not given.program.is_file():
        raise SystemExit(f"packaging/deb.py: {given.program}: no such program; `make install` builds it")
    given.to.mkdir(parents=True, exist_ok=True)
    with tempfile.TemporaryDirectory() as folder:
        room = pathlib.Path(folder, "omaha")
        room.mkdir(mode=0o755)
        made = given.to / fill(room, given.program, given.version or version_of(given.program))
        subprocess.run(["dpkg-deb", "--root-owner-group", "--build", room, made], check=True, stdout=subprocess.DEVNULL)
    print(made)


if __name__ == "__main__":
    main()
