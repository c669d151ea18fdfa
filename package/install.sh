#!/bin/sh
# Installs the files of this package, or removes them.
#
# usage: ./install.sh PREFIX            for example /usr/local, or "$HOME/.local"
#        ./install.sh --remove PREFIX
#
# They go to bin, lib, include and share below PREFIX, the Rust crates to share/failreg/rust. For packagers: with
# DESTDIR in the environment they go below that folder.
set -eu
here=$(CDPATH='' cd -- "$(dirname -- "$0")" && pwd)

fail() {
    echo "install.sh: $1" >&2
    exit "${2:-1}"
}

# Prints the files of the package, which SHA256SUMS lists.
files() { sed 's/^[0-9a-f]*  //' "$here/SHA256SUMS"; }

# Prints the place of a file below PREFIX, or nothing if it isn't installed.
place_of() {
    case $1 in
        bin/* | lib/* | include/* | share/*) echo "$1" ;;
        rust/*) echo "share/failreg/$1" ;;
    esac
}

link=share/failreg/rust/failreg-sys/lib

install_all() {
    (cd "$here" && sha256sum --check --quiet SHA256SUMS) || fail "a file doesn't match SHA256SUMS: unpack the package again"
    mkdir -p "$to" 2>/dev/null || true
    [ -w "$to" ] || fail "cannot write to $to: choose another PREFIX, or install as root"
    files | while IFS= read -r file; do
        place=$(place_of "$file")
        [ -n "$place" ] || continue
        mkdir -p "$to/$(dirname "$place")"
        rm -f "$to/$place"
        cp "$here/$file" "$to/$place"
        if [ -x "$here/$file" ]; then chmod 755 "$to/$place"; else chmod 644 "$to/$place"; fi
    done
    ln -sfn ../../../../lib "$to/$link"
    echo "failreg is installed in $prefix"
    "$here/bin/failreg" --version >/dev/null 2>&1 ||
        echo "  bin/failreg doesn't run here: it needs x86-64 Linux with glibc 2.34 or later"
    case ":$PATH:" in *":$prefix/bin:"*) ;; *) echo "  add $prefix/bin to PATH" ;; esac
    echo "  Rust: failreg = { path = \"$prefix/share/failreg/rust/failreg\" }"
    echo "  C: pkg-config --cflags --libs failreg, if needed with PKG_CONFIG_PATH=$prefix/lib/pkgconfig"
}

remove_all() {
    rm -f "$to/$link"
    files | while IFS= read -r file; do
        place=$(place_of "$file")
        [ -n "$place" ] || continue
        rm -f "$to/$place"
    done
    # Removes the empty folders, except PREFIX: rmdir keeps the others.
    files | while IFS= read -r file; do
        place=$(place_of "$file")
        while [ -n "$place" ] && [ "$place" != . ]; do
            place=$(dirname "$place")
            [ "$place" = . ] || rmdir "$to/$place" 2>/dev/null || break
        done
    done
    echo "failreg is removed from $prefix"
}

does=install_all
if [ "${1:-}" = --remove ]; then
    does=remove_all
    shift
fi
[ $# -eq 1 ] || fail "usage: ./install.sh [--remove] PREFIX" 2
case $1 in
    /*) prefix=${1%/} ;;
    -*) fail "unknown option $1: usage: ./install.sh [--remove] PREFIX" 2 ;;
    *) prefix=$PWD/${1%/} ;;
esac
to=${DESTDIR:-}$prefix
$does
