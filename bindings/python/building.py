"""What pip calls to build the package codzvregi: a wheel with the shared library in it. It wants no other package, so
no index is asked.

The library is made as `./spin library` makes it, of this repository: the proved one where that is built, and else the
plain one. CODZVREGI_LIBRARY may name a shared library that is taken in its place.
"""

import base64
import hashlib
import os
import re
import sys
import sysconfig
import tempfile
import zipfile
from pathlib import Path
from types import ModuleType

HERE = Path(__file__).resolve().parent
TOP = HERE.parent.parent


def get_requires_for_build_wheel(config_settings: object = None) -> list[str]:
    """What has to be installed first: nothing."""
    return []


def library_module() -> ModuleType:
    """The module of the repository that makes the library."""
    if not (TOP / "wrapper" / "library.py").is_file():
        sys.exit("codzvregi: the package is built in its repository, and this isn't there; pip does so from 21.3 on")
    sys.dont_write_bytecode = True
    sys.path.insert(0, str(TOP))
    from wrapper import library

    return library


def shared_library(library: ModuleType) -> bytes:
    """The bytes of the shared library."""
    if "CODZVREGI_LIBRARY" in os.environ:
        return Path(os.environ["CODZVREGI_LIBRARY"]).read_bytes()
    with tempfile.TemporaryDirectory() as folder:
        try:
            archives, proved = library.chosen(False)
            library.make(archives, proved, Path(folder))
        except library.NotMade as why:
            sys.exit(f"codzvregi: no library is made: {why}")
        print(f"codzvregi: with {proved}")
        return (Path(folder) / library.SHARED).read_bytes()


def metadata(release: str) -> str:
    """What the package says of itself."""
    project = (HERE / "pyproject.toml").read_text()
    told = dict(re.findall(r'^([\w-]+) = "(.*)"$', project, re.MULTILINE))
    return (
        f"Metadata-Version: 2.1\nName: {told['name']}\nVersion: {release}\nSummary: {told['description']}\n"
        f"Requires-Python: {told['requires-python']}\n"
    )


def platform() -> str:
    """This machine's name in the names of wheels."""
    return re.sub(r"[-.]", "_", sysconfig.get_platform())


def described(library: ModuleType) -> tuple[dict[str, bytes], str]:
    """What is said of the package: the files of its own folder but the record, and the tag of the wheel."""
    tag = f"py3-none-{platform()}"
    wheel = f"Wheel-Version: 1.0\nGenerator: codzvregi\nRoot-Is-Purelib: false\nTag: {tag}\n"
    return {"METADATA": metadata(library.RELEASE).encode(), "WHEEL": wheel.encode()}, tag


def prepare_metadata_for_build_wheel(metadata_directory: str, config_settings: object = None) -> str:
    """Writes what is said of the package, for which nothing is built, and answers the folder."""
    library = library_module()
    folder = Path(metadata_directory) / f"codzvregi-{library.RELEASE}.dist-info"
    folder.mkdir()
    for name, content in described(library)[0].items():
        (folder / name).write_bytes(content)
    return folder.name


def row(name: str, content: bytes) -> str:
    """A file's row in the record."""
    summed = base64.urlsafe_b64encode(hashlib.sha256(content).digest()).rstrip(b"=").decode()
    return f"{name},sha256={summed},{len(content)}\n"


def build_wheel(wheel_directory: str, config_settings: object = None, metadata_directory: str | None = None) -> str:
    """Writes the wheel into the folder, and answers its name."""
    library = library_module()
    said, tag = described(library)
    folder, name = f"codzvregi-{library.RELEASE}.dist-info", f"codzvregi-{library.RELEASE}-{tag}.whl"
    package = sorted(file for file in (HERE / "codzvregi").iterdir() if file.suffix in (".py", ".typed"))
    files = {f"codzvregi/{file.name}": file.read_bytes() for file in package}
    files[f"codzvregi/{library.SHARED}"] = shared_library(library)
    files.update((f"{folder}/{it}", content) for it, content in said.items())
    record = "".join(row(*it) for it in files.items()) + f"{folder}/RECORD,,\n"
    with zipfile.ZipFile(Path(wheel_directory) / name, "w", zipfile.ZIP_DEFLATED) as wheel:
        for it, content in {**files, f"{folder}/RECORD": record.encode()}.items():
            wheel.writestr(it, content)
    return name


def build_sdist(sdist_directory: str, config_settings: object = None) -> str:
    """Says that there is none: the library is made of the repository, of which the package is a small part."""
    sys.exit("codzvregi: the package has no archive of sources of its own; its repository is that")
