"""Writes the wheel: wheel.py VERSION EPOCH FOLDER STAGE, at the top of the repository. Each file has the time EPOCH.

In STAGE lies what packaging/install.sh puts with an empty PREFIX. Its programs and its `share` go where pip puts the
commands and the files beside them. The module and the shared object are taken from python and build.
"""

import base64
import hashlib
import re
import sys
import time
import zipfile
from pathlib import Path
from typing import Dict, List, Tuple

# The platform's name promises a C library of 2.17 or later, and no other library.
PLATFORM, MOST_GLIBC = "manylinux2014_x86_64", (2, 17)

METADATA = """\
Metadata-Version: 2.1
Name: yds
Version: {version}
Summary: Planner and auditor for jobs on one processor of variable speed
Author: the yds_cli authors
License: MIT OR Apache-2.0
License-File: LICENSE-MIT
License-File: LICENSE-APACHE
Requires-Python: >=3.9
Provides-Extra: plot
Requires-Dist: matplotlib >= 3.6; extra == 'plot'
Classifier: Operating System :: POSIX :: Linux
Classifier: Programming Language :: Python :: 3
Classifier: Typing :: Typed
Description-Content-Type: text/markdown

{description}"""

WHEEL = """\
Wheel-Version: 1.0
Generator: yds_cli packaging/wheel.py
Root-Is-Purelib: false
Tag: py3-none-{platform}
"""


def shared_object(path: Path) -> bytes:
    """The bytes of the shared object, which has to run where the platform's name says."""
    data = path.read_bytes()
    needed = max(((int(a), int(b)) for a, b in re.findall(rb"GLIBC_(\d+)\.(\d+)", data)), default=(0, 0))
    if needed > MOST_GLIBC:
        sys.exit(
            f"wheel.py: {path} needs glibc {needed[0]}.{needed[1]}, and {PLATFORM} has {MOST_GLIBC[0]}.{MOST_GLIBC[1]}"
        )
    return data


def entry_points() -> str:
    """What pip makes the commands of: each module of yds.commands that has a table of words."""
    places = sorted(Path("python/yds/commands").glob("[a-z]*.py"))
    names = [place.stem for place in places if "\nCOMMAND = " in place.read_text(encoding="utf-8")]
    return "".join(["[console_scripts]\n", *(f"yds-{name} = yds.commands._start:start\n" for name in names)])


def module_files(version: str) -> Dict[str, bytes]:
    """The files of the package's folder by their names."""
    package = Path("python/yds")
    places = [path for path in package.rglob("*") if path.suffix in (".py", ".typed")]
    files = {path.relative_to(package.parent).as_posix(): path.read_bytes() for path in places}
    if f'VERSION = "{version}"\n'.encode() not in files["yds/_version.py"]:
        sys.exit(f"wheel.py: python/yds/_version.py doesn't say VERSION = {version!r}, which VERSION says")
    return files


def metadata(version: str) -> bytes:
    """What the package says of itself. python/pyproject.toml says the same to who builds it from its sources."""
    return METADATA.format(version=version, description=Path("python/README.md").read_text(encoding="utf-8")).encode()


def installed(stage: Path, version: str) -> Dict[str, bytes]:
    """What isn't of the module, by its name: the programs as scripts, and what they share."""
    data = f"yds-{version}.data"
    files = {f"{data}/data/{path.relative_to(stage).as_posix()}": path.read_bytes() for path in shared_files(stage)}
    files[f"{data}/data/share/doc/yds-doc/copyright"] = Path("debian/copyright").read_bytes()
    for path in (stage / "bin").iterdir():
        if not path.is_symlink():
            files[f"{data}/scripts/{path.name}"] = path.read_bytes()
    return files


def shared_files(stage: Path) -> List[Path]:
    """The samples, examples, manual pages, completion and pages. A link is what it leads to: a wheel has no links."""
    return [path for path in (stage / "share").rglob("*") if path.is_file()]


def contents(version: str, stage: Path) -> Dict[str, bytes]:
    """The files of the wheel by their names, all but its record."""
    info = f"yds-{version}.dist-info"
    files = module_files(version)
    files["yds/libyds.so.1"] = shared_object(Path("build/libyds.so"))
    files.update(installed(stage, version))
    files[f"{info}/METADATA"] = metadata(version)
    files[f"{info}/entry_points.txt"] = entry_points().encode()
    files[f"{info}/WHEEL"] = WHEEL.format(platform=PLATFORM).encode()
    for licence in ("LICENSE-MIT", "LICENSE-APACHE"):
        files[f"{info}/{licence}"] = Path(licence).read_bytes()
    return dict(sorted(files.items()))


def record(files: Dict[str, bytes], name: str) -> bytes:
    """The sum and the size of each file."""
    lines = []
    for path, data in files.items():
        digest = base64.urlsafe_b64encode(hashlib.sha256(data).digest()).rstrip(b"=").decode()
        lines.append(f"{path},sha256={digest},{len(data)}\n")
    return "".join([*lines, f"{name},,\n"]).encode()


def write(path: Path, files: Dict[str, bytes], epoch: int) -> None:
    """A zip of the files, in their order."""
    moment: Tuple[int, ...] = time.gmtime(epoch)[:6]
    with zipfile.ZipFile(path, "w", zipfile.ZIP_DEFLATED, compresslevel=9) as archive:
        for name, data in files.items():
            entry = zipfile.ZipInfo(name, moment)  # type: ignore[arg-type]
            entry.compress_type = zipfile.ZIP_DEFLATED
            entry.external_attr = (0o100755 if is_program(name) else 0o100644) << 16
            archive.writestr(entry, data)


def is_program(name: str) -> bool:
    """Whether the file is one that is run."""
    return ".so" in name or ".data/scripts/" in name or name.endswith(".sh")


def main(version: str, epoch: str, folder: str, stage: str) -> None:
    """Writes it."""
    files = contents(version, Path(stage))
    name = f"yds-{version}.dist-info/RECORD"
    files[name] = record(files, name)
    write(Path(folder) / f"yds-{version}-py3-none-{PLATFORM}.whl", files, int(epoch))


if __name__ == "__main__":
    main(*sys.argv[1:])
