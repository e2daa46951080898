"""An archive and a Debian package of a tree of files: the same files make the same bytes."""

import gzip
import hashlib
import io
import os
import re
import shutil
import subprocess
import tarfile
import tempfile
from dataclasses import dataclass
from pathlib import Path, PurePosixPath

from basin_files.program import Unable

from .needs import Needs

HOME = "usr/lib/basin"  # where the package has the tree
LINKS = {
    "usr/bin/basin": "../lib/basin/basin",
    "usr/share/doc/basin/PROOF.txt": "../../../lib/basin/PROOF.txt",
    "usr/share/doc/basin/docs": "../../../lib/basin/docs",
    "usr/share/doc/basin/examples": "../../../lib/basin/examples",
    "usr/lib/python3/dist-packages/basin": "../../basin/python/basin",
}
TOOL = re.compile(rf"{HOME}/tools/([a-z]+)")
CONTROL = """Package: basin
Version: {version}
Architecture: amd64
Maintainer: basin <basin@localhost>
Installed-Size: {size}
Depends: libc6 (>= {glibc})
Recommends: python3 (>= 3.11)
Suggests: graphviz, gnuplot-nox, python3-pandas, python3-xarray, python3-netcdf4, python3-distributed, python3-cryptography
Section: science
Priority: optional
Description: proved simulator of regulated river basins
 Tables of reservoirs, reaches, water users, canals and gages over hours, days
 or months, with operating rules and without. The program is proved to write
 what its definitions give; its scripts are not.
"""
# What Python keeps of the scripts that were run is no file of the package, and would stay behind.
REMOVAL = """#!/bin/sh
set -e
home=$DPKG_ROOT/usr/lib/basin
[ ! -d "$home" ] || find "$home" -name __pycache__ -prune -exec rm -rf {} +
"""


@dataclass(frozen=True)
class File:
    """A file that is packed."""

    content: bytes
    is_program: bool = False

    @property
    def mode(self) -> int:
        """Its mode, whatever that of its source is."""
        return 0o755 if self.is_program else 0o644


Tree = dict[str, File]  # by the path within what is packed


def sums(tree: Tree) -> bytes:
    """A line for each file, as `sha256sum -c` reads it."""
    return "".join(f"{hashlib.sha256(tree[path].content).hexdigest()}  {path}\n" for path in sorted(tree)).encode()


def folders_of(tree: Tree) -> list[str]:
    """The folders of a tree."""
    return sorted({str(above) for path in tree for above in PurePosixPath(path).parents} - {"."})


def archive(tree: Tree, top: str, epoch: int) -> bytes:
    """A tar archive, compressed, with all below one folder."""
    packed = io.BytesIO()
    with tarfile.open(fileobj=packed, mode="w", format=tarfile.USTAR_FORMAT) as tar:
        for path in sorted([".", *folders_of(tree), *tree]):
            member = tarfile.TarInfo(str(PurePosixPath(top, path)))
            member.mtime, member.uname, member.gname = epoch, "root", "root"
            if path in tree:
                member.size, member.mode = len(tree[path].content), tree[path].mode
                tar.addfile(member, io.BytesIO(tree[path].content))
            else:
                member.type, member.mode = tarfile.DIRTYPE, 0o755
                tar.addfile(member)
    return gzip.compress(packed.getvalue(), mtime=0)


def installed(tree: Tree, notice: str) -> Tree:
    """The files of the package, each where it is installed."""
    files = {f"{HOME}/{path}": file for path, file in tree.items()}
    files["usr/share/man/man1/basin.1.gz"] = squeezed(tree["man/basin.1"])
    files["usr/share/bash-completion/completions/basin"] = tree["completion/basin"]
    files["usr/share/fish/vendor_completions.d/basin.fish"] = tree["completion/basin.fish"]
    files["usr/share/zsh/vendor-completions/_basin"] = tree["completion/_basin"]
    files["usr/share/doc/basin/changelog.gz"] = squeezed(tree["CHANGELOG.md"])
    files["usr/share/doc/basin/copyright"] = File(notice.encode())
    return files


def commands_of(files: Tree) -> dict[str, str]:
    """Links by which each tool is a command of its own, basin-doctor and so on."""
    names = [found[1] for path, file in files.items() if file.is_program and (found := TOOL.fullmatch(path))]
    return {f"usr/bin/basin-{name}": f"../lib/basin/tools/{name}" for name in names}


def squeezed(file: File) -> File:
    """A file, compressed."""
    return File(gzip.compress(file.content, mtime=0))


def control(files: Tree, version: str, needs: Needs) -> Tree:
    """What dpkg reads of a package."""
    size = -(-sum(len(file.content) for file in files.values()) // 1024)
    text = CONTROL.format(version=version, size=size, glibc=needs.glibc_text)
    lines = [f"{hashlib.md5(files[path].content).hexdigest()}  {path}\n" for path in sorted(files)]
    return {
        "DEBIAN/control": File(text.encode()), "DEBIAN/md5sums": File("".join(lines).encode()),
        "DEBIAN/prerm": File(REMOVAL.encode(), is_program=True),
    }


def laid_out(files: Tree, folder: Path, epoch: int) -> None:
    """Writes files and links, all with the same time."""
    for path, file in files.items():
        place = folder / path
        place.parent.mkdir(parents=True, exist_ok=True)
        place.write_bytes(file.content)
        place.chmod(file.mode)
    for path, target in (LINKS | commands_of(files)).items():
        (folder / path).parent.mkdir(parents=True, exist_ok=True)
        (folder / path).symlink_to(target)
    for place in [folder, *folder.rglob("*")]:
        if place.is_dir() and not place.is_symlink():
            place.chmod(0o755)
        os.utime(place, (epoch, epoch), follow_symlinks=False)


def debian(files: Tree, path: Path, epoch: int) -> bool:
    """Makes a Debian package; where dpkg-deb isn't there, none."""
    if not shutil.which("dpkg-deb"):
        return False
    with tempfile.TemporaryDirectory() as name:
        folder = Path(name) / "package"
        laid_out(files, folder, epoch)
        words = ["dpkg-deb", "-Zgzip", "--root-owner-group", "--build", str(folder), str(path)]
        done = subprocess.run(
            words, capture_output=True, text=True, check=False, env={**os.environ, "SOURCE_DATE_EPOCH": str(epoch)}
        )
    if done.returncode:
        raise Unable(f"dpkg-deb failed: {done.stderr.strip()}")
    return True
