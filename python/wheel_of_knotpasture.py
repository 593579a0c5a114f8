"""Makes a wheel of the package with Python alone, so that an installation asks no other machine for anything: what pyproject.toml names.

    python3 wheel_of_knotpasture.py FOLDER [LIBRARIES [DOCUMENT...]]

The wheel has the shared libraries of the folder LIBRARIES beside the package, and the documents beside its METADATA. pip names neither: then the
libraries are those of the release or the repository that this folder is in. Without a library the wheel has Python alone, for any processor.
The same files make the same bytes: names in order, one time, nothing compressed, since zlib's versions differ.
"""
import base64
import hashlib
import pathlib
import platform
import re
import sys
import zipfile

HERE = pathlib.Path(__file__).resolve().parent
PROJECT = (HERE / "pyproject.toml").read_text()

# The number of a processor in an ELF file, and its name.
PROCESSORS = {62: "x86_64", 183: "aarch64"}

# manylinux2014 promises glibc 2.17, the first one for Arm. Every pip of a Python that this package takes knows the tag.
PLATFORM, GLIBC = "manylinux2014", 17


def said(key):
    return re.search(rf'^{key} = "(.*)"$', PROJECT, re.MULTILINE)[1]


def libraries_in(folder):
    """The shared libraries of a folder by their names in the package; none where the library is not there."""
    name = f"libknotpasture.so.{said('version').split('.')[0]}"
    if not (folder / name).is_file():
        return {}
    paths = [folder / name, folder / "libknotload.so", *folder.glob(f"glibc-hwcaps/*/{name}")]
    return {str(path.relative_to(folder)): path.read_bytes() for path in paths if path.is_file()}


def libraries_at_hand():
    """Those of the release that this folder is in, else those that tools/libraries wrote for this machine."""
    return libraries_in(HERE.parent / "lib") or libraries_in(HERE.parent / "target/lib" / platform.machine())


def platform_of(libraries):
    """The tag of the libraries' one processor; ValueError where they are of two, or ask for a newer C library than the tag promises."""
    if not libraries:
        return "any"
    processors = {PROCESSORS.get(int.from_bytes(content[18:20], "little")) if content[:4] == b"\x7fELF" else None for content in libraries.values()}
    if len(processors) != 1 or None in processors:
        raise ValueError("the libraries are not all of one processor, x86_64 or aarch64")
    for name, content in libraries.items():
        newest = max(map(int, re.findall(rb"GLIBC_2\.(\d+)", content)), default=0)
        if newest > GLIBC:
            raise ValueError(f"{name} asks for glibc 2.{newest}, and {PLATFORM} promises 2.{GLIBC}")
    return f"{PLATFORM}_{processors.pop()}"


def make_wheel(folder, libraries, documents):
    """Writes the wheel into a folder; its file name."""
    version, name = said("version"), said("name")
    tag = f"py3-none-{platform_of(libraries)}"
    info = f"{name}-{version}.dist-info"
    sources = [path for path in (HERE / name).iterdir() if path.suffix == ".py" or path.name == "py.typed"]
    package = {f"{name}/{path.name}": path.read_bytes() for path in sources} | {f"{name}/{path}": content for path, content in libraries.items()}
    about = {f"{info}/{path.name}": path.read_bytes() for path in documents}
    about[f"{info}/METADATA"] = (
        f"Metadata-Version: 2.1\nName: {name}\nVersion: {version}\nSummary: {said('description')}\nLicense: MIT OR Apache-2.0\n"
        f"Requires-Python: {said('requires-python')}\nRequires-Dist: numpy\nDescription-Content-Type: text/markdown\n\n"
    ).encode() + (HERE / "README.md").read_bytes()
    pure = "false" if libraries else "true"
    about[f"{info}/WHEEL"] = f"Wheel-Version: 1.0\nGenerator: knotpasture\nRoot-Is-Purelib: {pure}\nTag: {tag}\n".encode()
    files = dict(sorted(package.items())) | dict(sorted(about.items()))
    sums = {path: base64.urlsafe_b64encode(hashlib.sha256(content).digest()).rstrip(b"=").decode() for path, content in files.items()}
    rows = [f"{path},sha256={sums[path]},{len(files[path])}\n" for path in files] + [f"{info}/RECORD,,\n"]
    files[f"{info}/RECORD"] = "".join(rows).encode()
    wheel = f"{name}-{version}-{tag}.whl"
    with zipfile.ZipFile(pathlib.Path(folder) / wheel, "w", zipfile.ZIP_STORED) as made:
        for path, content in files.items():
            entry = zipfile.ZipInfo(path)
            entry.create_system, entry.external_attr = 3, 0o100644 << 16
            made.writestr(entry, content)
    return wheel


def build_wheel(wheel_directory, config_settings=None, metadata_directory=None):
    """What pip calls."""
    return make_wheel(wheel_directory, libraries_at_hand(), [])


def main(words):
    if not words:
        sys.exit("usage: wheel_of_knotpasture.py FOLDER [LIBRARIES [DOCUMENT...]]")
    libraries = libraries_in(pathlib.Path(words[1])) if words[1:] else libraries_at_hand()
    if not libraries:
        sys.exit("wheel_of_knotpasture.py: there is no libknotpasture to put into the wheel: tools/libraries makes it")
    try:
        print(make_wheel(words[0], libraries, [pathlib.Path(word) for word in words[2:]]))
    except (OSError, ValueError) as error:
        sys.exit(f"wheel_of_knotpasture.py: {error}")


if __name__ == "__main__":
    main(sys.argv[1:])
