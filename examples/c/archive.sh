# Sourced by the scripts beside it: `built` is a folder that is removed at the end, `archive` a copy of the library's
# archive in it. SANDZGULI_ARCHIVE is the archive's path, whatever its name (without it: the one that
# `tools/build` makes).
root=$(dirname "${BASH_SOURCE[0]}")/../..
archive=${SANDZGULI_ARCHIVE:-$root/target/staticlib/libsandzguli.a}
if [[ ! -f $archive ]]; then
    printf 'SANDZGULI_ARCHIVE is to be the path of the library: there is no file %s.\n' "$archive" >&2
    exit 1
fi
built=$(mktemp -d)
trap 'rm -rf "$built"' EXIT
cp "$archive" "$built/libsandzguli.a"
archive=$built/libsandzguli.a
cd "$root"
