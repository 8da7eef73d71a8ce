"""Builds the wheel of the package vers: its modules, and the library as a shared one.

The library is linked from the proved archive: the file that VERS_C names, or libvers_c.a in the folder of that name; or
else lib/libvers_c.a of an unpacked release, or what `tools/proofs.py vers_c` has built in crates/vers_c. The C compiler is
that of CC, or cc. If there is none for this processor, or VERS_C is "cargo", cargo builds the library from the
same sources as plain Rust.
"""

import base64
import hashlib
import io
import os
import re
import shutil
import subprocess
import sys
import sysconfig
import tarfile
import tempfile
import zipfile

HERE = os.path.dirname(os.path.abspath(__file__))
TOP = os.path.dirname(os.path.dirname(HERE))
ARCHIVES = [os.path.join(TOP, "lib", "libvers_c.a"), os.path.join(TOP, "crates", "vers_c", "out", "libvers_c.a")]
# what cargo builds the library of, in a clone; a source distribution has the same in the folder "library"
SOURCES = ["bindings/c/Cargo.toml", "bindings/c/Cargo.lock", "bindings/c/.cargo/config.toml", "bindings/c/src",
           "rust/src/proved", "rust/src/rattle", "rust/program/src/programs/catalogue"]
LIBRARIES = ("libvers.so", "libvers.dylib", "vers.dll")
NO_LIBRARY = ("vers: neither an archive libvers_c.a for this processor, which VERS_C can name, nor cargo "
              "(https://rustup.rs) with the sources bindings/c and rust of the repository")


def machine(path):
    """The code of the processor that an archive or a program is for."""
    with open(path, "rb") as file:
        data = file.read()
    start = data.find(b"\x7fELF")
    return data[start + 18:start + 20] if start >= 0 else None


def archives():
    """The archive of the library, and that of its heap calls, beside it or in the toolchain. None if there is none."""
    named = os.environ.get("VERS_C", "")
    if named == "cargo":
        return None
    named = os.path.join(named, "libvers_c.a") if os.path.isdir(named) else named
    own = machine(sys.executable)
    found = [it for it in ([named] if named else ARCHIVES) if os.path.isfile(it) and machine(it) == own]
    if named and not found:
        sys.exit(f"vers: VERS_C names no archive for this processor: {named}")
    if not found:
        return None
    places = [os.path.dirname(found[0])]
    if shutil.which("rt"):
        places.append(os.path.join(os.path.dirname(os.path.dirname(os.path.realpath(shutil.which("rt")))), "c"))
    for place in places:
        if os.path.exists(os.path.join(place, "liblibc_c.a")):
            return found[0], os.path.join(place, "liblibc_c.a")
    return None


def link(target):
    """Makes the shared library."""
    found = archives()
    if not found:
        return built(target)
    compiler = os.environ.get("CC", "cc").split()
    whole = ["-Wl,--whole-archive", found[0], "-Wl,--no-whole-archive"]
    return subprocess.run([*compiler, "-shared", "-o", target, *whole, found[1]], check=True)


def built(target):
    """Makes the shared library by cargo."""
    crates = [os.path.join(it, "bindings", "c") for it in (TOP, os.path.join(HERE, "library"))]
    crate = next((it for it in crates if os.path.exists(os.path.join(it, "Cargo.toml"))), None)
    if not crate or not shutil.which("cargo"):
        sys.exit(NO_LIBRARY)
    with tempfile.TemporaryDirectory() as folder:
        environment = {**os.environ, "CARGO_TARGET_DIR": folder}
        subprocess.run(["cargo", "build", "--release", "--offline", "--quiet"], cwd=crate, env=environment, check=True)
        made = (os.path.join(folder, "release", it) for it in LIBRARIES)
        shutil.copy(next(it for it in made if os.path.exists(it)), target)


def metadata():
    """The name and the version of the package, and the text of its METADATA."""
    with open(os.path.join(HERE, "pyproject.toml"), encoding="utf-8") as file:
        text = file.read()
    name, version, summary = (re.search(rf'(?m)^{it} = "(.*)"$', text)[1] for it in ("name", "version", "description"))
    with open(os.path.join(HERE, "README.md"), encoding="utf-8") as file:
        readme = file.read()
    head = f"Metadata-Version: 2.1\nName: {name}\nVersion: {version}\nSummary: {summary}\nRequires-Python: >=3.8\n"
    return name, version, head + f"License: MIT OR Apache-2.0\nDescription-Content-Type: text/markdown\n\n{readme}"


def build_wheel(wheel_directory, config_settings=None, metadata_directory=None):
    """Writes the wheel into a folder, and returns its name."""
    name, version, about = metadata()
    tag = "py3-none-" + re.sub(r"[-.]", "_", sysconfig.get_platform())
    info = f"{name}-{version}.dist-info"
    wheel = f"Wheel-Version: 1.0\nGenerator: build_wheel\nRoot-Is-Purelib: false\nTag: {tag}\n"
    files = {f"{info}/METADATA": about.encode(), f"{info}/WHEEL": wheel.encode()}
    for entry in sorted(os.listdir(os.path.join(HERE, name))):
        if entry.endswith((".py", ".typed")):
            with open(os.path.join(HERE, name, entry), "rb") as file:
                files[f"{name}/{entry}"] = file.read()
    with tempfile.TemporaryDirectory() as folder:
        link(os.path.join(folder, "libvers.so"))
        with open(os.path.join(folder, "libvers.so"), "rb") as file:
            files[f"{name}/libvers.so"] = file.read()
    record = "".join(f"{path},sha256={digest(content)},{len(content)}\n" for path, content in files.items())
    made = f"{name}-{version}-{tag}.whl"
    with zipfile.ZipFile(os.path.join(wheel_directory, made), "w", zipfile.ZIP_DEFLATED) as archive:
        for path, content in files.items():
            archive.writestr(path, content)
        archive.writestr(f"{info}/RECORD", record + f"{info}/RECORD,,\n")
    return made


def digest(content):
    """The digest of a file as a RECORD has it."""
    return base64.urlsafe_b64encode(hashlib.sha256(content).digest()).rstrip(b"=").decode()


def build_sdist(sdist_directory, config_settings=None):
    """Writes the source distribution, of which cargo builds the library, and returns its name."""
    name, version, about = metadata()
    files = {"PKG-INFO": about.encode()}
    for path in ["pyproject.toml", "README.md", "build_wheel.py", name]:
        files.update(texts(HERE, path, path))
    for path in SOURCES:
        files.update(texts(TOP, path, "library/" + path))
    made = f"{name}-{version}.tar.gz"
    with tarfile.open(os.path.join(sdist_directory, made), "w:gz") as archive:
        for path, content in sorted(files.items()):
            entry = tarfile.TarInfo(f"{name}-{version}/{path}")
            entry.size, entry.mode = len(content), 0o644
            archive.addfile(entry, io.BytesIO(content))
    return made


def texts(top, path, name):
    """The bytes of a file, or of the files of a folder, by their names in a source distribution."""
    whole = os.path.join(top, path)
    if os.path.isdir(whole):
        parts = [it for it in sorted(os.listdir(whole)) if it != "__pycache__"]
        return {at: data for it in parts for at, data in texts(top, f"{path}/{it}", f"{name}/{it}").items()}
    with open(whole, "rb") as file:
        return {name: file.read()}
