# Fetches a source package of Debian's into a new folder. Sourced.

# fetch_source PACKAGE FOLDER PATTERN ..: unpacks the files of the package's archive that match, below its first folder, and
# writes the package's version to the file "version". ARCHIVE may name an archive PACKAGE_VERSION.orig.tar.xz that is here, and
# VERSION a version that is to be fetched in place of the newest.
fetch_source() {
    local package=$1 folder=$2 archive=${ARCHIVE:-}
    shift 2
    rm -rf -- "$folder"
    mkdir -p -- "$folder"
    if [ -z "$archive" ]; then
        echo "fetching the source package $package" >&2
        (cd -- "$folder" && apt-get source --quiet --download-only --tar-only "$package${VERSION:+=$VERSION}" >&2) || {
            echo "apt-get can't fetch it. It needs the sources of Debian (a line deb-src, or \"Types: deb deb-src\") and apt-get" \
                "update. Where the mirror has not the newest version, VERSION names another one that apt-cache showsrc $package lists;" \
                "or ARCHIVE names the archive of a version that is here" >&2
            return 1
        }
        archive=$(ls -- "$folder/$package"_*.orig.tar.*)
    fi
    nice tar -xf "$archive" -C "$folder" --strip-components=1 --wildcards "${@/#/*/}"
    basename -- "$archive" | sed 's/^[^_]*_\(.*\)\.orig\.tar\..*$/\1/' >"$folder/version"
    [ -n "${ARCHIVE:-}" ] || rm -f -- "$folder/$package"_*.orig*
}
