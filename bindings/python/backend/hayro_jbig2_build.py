"""Builds the package by a C compiler and Python's own library alone (PEP 517), so that it installs without a network.

CC names the compiler; else it is cc. With a cross compiler PROCESSOR names the processor that the wheel is for. The library is
the proved text where that fits, else the C of bindings/portable/, which HAYRO_JBIG2_PORTABLE=1 takes in any case.
"""

from __future__ import annotations

import base64
import hashlib
import importlib.util
import io
import os
import pathlib
import platform
import re
import shlex
import subprocess
import sys
import sysconfig
import tarfile
import tempfile
import zipfile

ROOT = pathlib.Path(__file__).resolve().parent.parent
NAME, VERSION = "hayro_jbig2", "0.4.0"
PACKAGE = ROOT / "src" / NAME
# What the shared library is made of: files of the repository, of which an archive of the sources has copies here.
COPIES = ROOT / "native"
# The library's text for each processor, by the number that ELF has for it.
PROCESSORS = {62: "x86_64", 183: "aarch64"}
TEXT = "dist/{}/libhayro_jbig2.s"
WRITTEN_IN_C = ("bindings/c/memory.c", "bindings/c/handles.c", "bindings/c/texts.c")
PORTABLE_NAMES = ("hayro_jbig2_module", "instance", "handles", "drawing", "bytes", "segments", "written")
PORTABLE = (*(f"bindings/portable/{name}.c" for name in PORTABLE_NAMES), "bindings/c/handles.c", "bindings/c/texts.c")
PORTABLE_HEADERS = tuple(f"bindings/portable/{name}.h" for name in ("hayro_jbig2_module", "instance", "held", "calls", "wasm-rt"))
OTHERS = ("bindings/c/hayro_jbig2.h", "bindings/c/exports.map", "tools/build/linked/processor.h", "LICENSE-APACHE", "LICENSE-MIT")
INFO = f"{NAME}-{VERSION}.dist-info"
METADATA_FIELDS = f"""\
Metadata-Version: 2.1
Name: hayro-jbig2
Version: {VERSION}
Summary: A JBIG2 (ITU-T T.88) decoder that is proved
License: Apache-2.0 OR MIT
Keywords: jbig2,pdf,t88,verified
Classifier: Programming Language :: Python :: 3
Classifier: Topic :: Multimedia :: Graphics
Classifier: Typing :: Typed
Requires-Python: >=3.9
Description-Content-Type: text/markdown
"""
WHEEL_FIELDS = """\
Wheel-Version: 1.0
Generator: hayro_jbig2_build
Root-Is-Purelib: false
"""


def get_requires_for_build_wheel(config_settings=None):
    return []


def get_requires_for_build_sdist(config_settings=None):
    return []


def build_wheel(wheel_directory, config_settings=None, metadata_directory=None):
    """Writes the wheel and returns its name."""
    portable = is_portable()
    library = shared_library(portable)
    platforms = platforms_of(library)
    tags = "".join(f"Tag: py3-none-{name}\n" for name in platforms)
    files = {f"{NAME}/{path.name}": path.read_bytes() for path in sorted(PACKAGE.glob("*")) if is_source(path)}
    files[f"{NAME}/libhayro_jbig2.so"] = library
    if portable:
        files[f"{NAME}/_made.py"] = files[f"{NAME}/_made.py"].replace(b"PORTABLE = False", b"PORTABLE = True")
    files.update((f"{INFO}/{name}", content) for name, content in information().items())
    files[f"{INFO}/WHEEL"] = (WHEEL_FIELDS + tags).encode()
    files[f"{INFO}/RECORD"] = record(files).encode()
    name = f"{NAME}-{VERSION}-py3-none-{'.'.join(platforms)}.whl"
    with zipfile.ZipFile(os.path.join(wheel_directory, name), "w", zipfile.ZIP_DEFLATED) as wheel:
        for path, content in files.items():
            # The same time in each wheel, so that equal sources make equal wheels.
            entry = zipfile.ZipInfo(path, (1980, 1, 1, 0, 0, 0))
            entry.compress_type, entry.external_attr = zipfile.ZIP_DEFLATED, 0o100644 << 16
            wheel.writestr(entry, content)
    return name


def build_sdist(sdist_directory, config_settings=None):
    """Writes the archive of the sources, with copies of the repository's files, and returns its name."""
    top = f"{NAME}-{VERSION}"
    name = f"{top}.tar.gz"
    with tarfile.open(os.path.join(sdist_directory, name), "w:gz") as archive:
        for path in ("pyproject.toml", "README.md", "backend", "src"):
            archive.add(ROOT / path, f"{top}/{path}", filter=without_made_files)
        for path in (*map(TEXT.format, PROCESSORS.values()), *sorted({*WRITTEN_IN_C, *PORTABLE}), *PORTABLE_HEADERS, *OTHERS):
            archive.add(native(path), f"{top}/native/{path}")
        content = information()["METADATA"]
        entry = tarfile.TarInfo(f"{top}/PKG-INFO")
        entry.size = len(content)
        archive.addfile(entry, io.BytesIO(content))
    return name


def native(path):
    """A file of the repository, or its copy."""
    for found in COPIES / path, ROOT.parent.parent / path:
        if found.exists():
            return found
    raise RuntimeError(f"there is no {path} beside {ROOT}: pip before 21.3 copies that folder alone, so take a later one")


def is_source(path):
    return path.suffix == ".py" or path.name == "py.typed"


def without_made_files(entry):
    return None if "__pycache__" in entry.name else entry


def information():
    """The files of the wheel that say what it is, without the platforms."""
    description = (ROOT / "README.md").read_text(encoding="utf-8")
    files = {"METADATA": f"{METADATA_FIELDS}\n{description}".encode()}
    files.update((name, native(name).read_bytes()) for name in OTHERS if name.startswith("LICENSE"))
    return files


def processor():
    """The processor's name, as the folders of dist/ have it."""
    return os.environ.get("PROCESSOR") or platform.machine()


def is_portable():
    """Whether no text fits the machine that the wheel is for."""
    if os.environ.get("HAYRO_JBIG2_PORTABLE") == "1":
        return True
    fits = sys.platform == "linux" and sys.maxsize > 2**32 and processor() in PROCESSORS.values()
    return not fits or ("PROCESSOR" not in os.environ and is_older_processor())


def is_older_processor():
    """Whether the processor here is below the level that the text for x86-64 needs."""
    spec = importlib.util.spec_from_file_location("processor", PACKAGE / "_processor.py")
    module = importlib.util.module_from_spec(spec)
    spec.loader.exec_module(module)
    return bool(module.missing_here())


def platforms_of(library):
    """The platforms that the library runs on, as wheels name them.

    manylinux (PEP 600) names the oldest glibc. The library may need no other library, and no newer symbols. Elsewhere the
    platform is that of this Python, or Linux on the processor that a cross compiler makes code for.
    """
    name = PROCESSORS.get(int.from_bytes(library[18:20], "little")) if library[:5] == b"\x7fELF\x02" else None
    if name is None:
        name = os.environ.get("PROCESSOR")
        return [f"linux_{name}" if name else re.sub("[-.]", "_", sysconfig.get_platform())]
    libraries = set(re.findall(rb"(?<=\0)[\w.+-]+\.so[.\d]*(?=\0)", library))
    versions = {tuple(map(int, version)) for version in re.findall(rb"GLIBC_(\d+)\.(\d+)", library)}
    # The loader has thread-local variables, and is part of glibc.
    libraries = {library for library in libraries if not library.startswith(b"ld-linux")}
    if libraries != {b"libc.so.6"} or not versions:
        return [f"linux_{name}"]
    # 2.17 is the oldest that others still make. Older versions of pip know it as manylinux2014.
    if max(versions) <= (2, 17):
        return [f"manylinux2014_{name}", f"manylinux_2_17_{name}"]
    return ["manylinux_{}_{}_{}".format(*max(versions), name)]


def shared_library(portable):
    """The library's text and the C files around it, or the portable C, compiled."""
    compiler = shlex.split(os.environ.get("CC", "")) or ["cc"]
    words = ["-O2", "-shared", "-fPIC", "-I", str(native("bindings/c/hayro_jbig2.h").parent)]
    if sys.platform == "linux":
        words += ["-Wl,-Bsymbolic,-z,defs,-z,relro,-z,now", f"-Wl,--version-script={native('bindings/c/exports.map')}"]
    if portable:
        words += ["-I", str(native(PORTABLE[0]).parent), *(str(native(path)) for path in PORTABLE)]
    else:
        words += [str(native(path)) for path in (TEXT.format(processor()), *WRITTEN_IN_C)]
    with tempfile.TemporaryDirectory() as folder:
        made = os.path.join(folder, "libhayro_jbig2.so")
        try:
            subprocess.run([*compiler, *words, "-o", made], check=True)
        except FileNotFoundError:
            raise RuntimeError(f"there is no C compiler ({compiler[0]}): install one, or set CC to its name") from None
        return pathlib.Path(made).read_bytes()


def record(files):
    """The list of a wheel's files with their sums."""
    lines = []
    for path, content in files.items():
        digest = base64.urlsafe_b64encode(hashlib.sha256(content).digest()).rstrip(b"=").decode()
        lines.append(f"{path},sha256={digest},{len(content)}\n")
    return "".join(lines) + f"{INFO}/RECORD,,\n"
