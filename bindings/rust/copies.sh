# Sourced by package and with-image, which say where `here` is.

# Copies the crate into a folder, but for its Cargo.toml, with the library's texts and the C that build.rs takes elsewhere.
copy_crate() {
    local root=$here/../.. processor
    mkdir -- "$1"/{text,portable,c}
    cp -r -- "$here"/{build.rs,examples,README.md,src} "$root"/LICENSE-* "$1"
    for processor in x86_64 aarch64; do
        mkdir -- "$1/text/$processor"
        cp -- "$root/dist/$processor/libhayro_jbig2.s" "$1/text/$processor"
    done
    cp -- "$root"/bindings/portable/*.[ch] "$1/portable"
    cp -- "$root"/bindings/c/{handles.c,texts.c,hayro_jbig2.h} "$1/c"
}
