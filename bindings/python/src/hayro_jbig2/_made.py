"""Of what the library beside this was made. The build sets it."""

from __future__ import annotations

PORTABLE = False
"""Whether it is the C of bindings/portable/, which runs on each processor, and not the text of dist/."""
