"""Whether the processor has what the library's code needs."""

from __future__ import annotations

import platform

# The level x86-64-v2, by the names of /proc/cpuinfo. The text doesn't use all of it, but glibc's loader asks for all.
_NEEDED = {"cx16", "lahf_lm", "pni", "popcnt", "sse4_1", "sse4_2", "ssse3"}


def check_processor() -> None:
    """Raises ImportError where the text for x86-64 is not loaded, or would end the process by an illegal instruction."""
    missing = missing_here()
    if missing:
        raise ImportError(f"hayro_jbig2 needs a processor of the level x86-64-v2, and this one lacks {missing}")


def missing_here() -> str:
    """The features that this processor lacks."""
    if platform.machine() != "x86_64":
        return ""
    try:
        # The first processor is there. To read on takes long on large machines.
        with open("/proc/cpuinfo", "rb", buffering=0) as file:
            return missing_features(file.read(1 << 14).decode("ascii", "replace"))
    except OSError:
        return ""


def missing_features(text: str) -> str:
    """Those that the first processor of /proc/cpuinfo lacks; none where it lists no features."""
    for line in text.splitlines():
        name, _, features = line.partition(":")
        if name.strip() == "flags":
            return ", ".join(sorted(_NEEDED - set(features.split())))
    return ""
