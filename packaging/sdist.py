"""Writes the source archive of the package: sdist.py VERSION EPOCH FOLDER, at the top of the repository."""

import gzip
import io
import sys
import tarfile
from pathlib import Path
from typing import Dict

from wheel import entry_points, metadata, module_files


def contents(version: str) -> Dict[str, bytes]:
    """The files of the archive by their names."""
    files = module_files(version)
    files["PKG-INFO"] = metadata(version)
    files["entry_points.txt"] = entry_points().encode()
    for name in ("pyproject.toml", "README.md"):
        files[name] = Path("python", name).read_bytes()
    for licence in ("LICENSE-MIT", "LICENSE-APACHE"):
        files[licence] = Path(licence).read_bytes()
    return dict(sorted(files.items()))


def archived(files: Dict[str, bytes], folder: str, epoch: int) -> bytes:
    """A tar of the files in a folder, each with the time EPOCH and nobody's name."""
    made = io.BytesIO()
    with tarfile.open(fileobj=made, mode="w", format=tarfile.USTAR_FORMAT) as archive:
        for name, data in files.items():
            entry = tarfile.TarInfo(f"{folder}/{name}")
            entry.size, entry.mtime, entry.mode = len(data), epoch, 0o644
            archive.addfile(entry, io.BytesIO(data))
    return gzip.compress(made.getvalue(), 9, mtime=0)


def main(version: str, epoch: str, folder: str) -> None:
    name = f"yds-{version}"
    Path(folder, f"{name}.tar.gz").write_bytes(archived(contents(version), name, int(epoch)))


if __name__ == "__main__":
    main(*sys.argv[1:])
