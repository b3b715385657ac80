# Sourced by build and test: the sources, and how they are compiled.
root=$(dirname -- "$(dirname -- "$here")")
sources=("$here/instance.c" "$here/handles.c" "$here/drawing.c" "$here/bytes.c" "$here/segments.c" "$here/written.c"
    "$root/bindings/c/handles.c" "$root/bindings/c/texts.c")
module=$here/hayro_jbig2_module.c
includes=(-I"$here" -I"$root/bindings/c")
