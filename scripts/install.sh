#!/bin/sh
# install.sh look|install|uninstall: puts header, archive, pkg-config file, licence and the program month where PREFIX,
# INCLUDEDIR, LIBDIR, BINDIR, DOCDIR and DESTDIR say, or takes them away. Modes do not depend on the umask, and the
# paths may hold blanks. In dsss.pc folders under PREFIX are said by ${prefix}, so that all can be moved together:
# pkg-config --define-prefix, or --define-variable=prefix=.., then finds it.
#
# `look` leaves nothing behind: it asks, before anything is proved, whether the paths can be installed to, and whether
# this processor runs the code. That is x86-64; elsewhere it is installed only if DSSS_FOREIGN is 1.
set -eu
cd "$(dirname "$0")/.."

say() {
    echo "install.sh: $*" >&2
    exit 2
}

prefix=${PREFIX-/usr/local}
[ -n "$prefix" ] || say 'PREFIX is empty'
include=${INCLUDEDIR:-$prefix/include}
lib=${LIBDIR:-$prefix/lib}
bin=${BINDIR:-$prefix/bin}
doc=${DOCDIR:-$prefix/share/doc/dsss}
for path in "$prefix" "$include" "$lib" "$bin" "$doc" "${DESTDIR:-/}"; do
    case $path in
    /*) ;;
    *) say "$path is no absolute path" ;;
    esac
done
to_include=${DESTDIR:-}$include
to_lib=${DESTDIR:-}$lib
to_bin=${DESTDIR:-}$bin
to_doc=${DESTDIR:-}$doc

writable() { # writable FOLDER: it, or the nearest above it that is there, can be written to
    at=$1
    while [ ! -e "$at" ]; do
        at=$(dirname "$at")
    done
    [ -d "$at" ] || say "$at is no folder, so that nothing can be installed to $1"
    tried=$(mktemp "$at/.dsss.XXXXXX" 2>/dev/null) ||
        say "cannot write to $at: another PREFIX, or, once \`make target/c/month\` has built what is installed:" \
            "sudo env \"PATH=\$PATH\" make install"
    rm -f "$tried"
}

look() {
    for folder in "$to_include" "$to_lib/pkgconfig" "$to_bin" "$to_doc"; do
        writable "$folder"
    done
    [ "$(uname -m)" = x86_64 ] || [ "${DSSS_FOREIGN:-}" = 1 ] ||
        say "the code is x86-64, and this processor ($(uname -m)) runs it only under an emulator;" \
            "to install it all the same: DSSS_FOREIGN=1 make install .."
}

version() { # version: its three parts, from the header
    for part in MAJOR MINOR PATCH; do
        sed -n "s/^#define DSSS_VERSION_$part //p" include/dsss.h
    done | paste -sd . -
}

under() { # under FOLDER: it, from ${prefix} if it is there
    case $1 in
    "$prefix"/*) printf '%s%s' "\${prefix}" "${1#"$prefix"}" ;;
    *) printf '%s' "$1" ;;
    esac
}

quoted() { # quoted TEXT: as the replacement of a sed command with | between its parts
    printf '%s' "$1" | sed 's/[\\&|]/\\&/g'
}

case ${1:-} in
look) look ;;
install)
    look
    install -d -m 755 "$to_include" "$to_lib" "$to_lib/pkgconfig" "$to_bin" "$to_doc"
    install -m 644 include/dsss.h "$to_include/dsss.h"
    install -m 644 target/staticlib/libdsss.a "$to_lib/libdsss.a"
    install -m 755 target/c/month "$to_bin/month"
    install -m 644 LICENSE "$to_doc/LICENSE"
    made=$(mktemp)
    trap 'rm -f "$made"' EXIT
    sed -e "s|@PREFIX@|$(quoted "$prefix")|" -e "s|@INCLUDEDIR@|$(quoted "$(under "$include")")|" \
        -e "s|@LIBDIR@|$(quoted "$(under "$lib")")|" -e "s|@VERSION@|$(version)|" include/dsss.pc.in >"$made"
    install -m 644 "$made" "$to_lib/pkgconfig/dsss.pc"
    ;;
uninstall)
    rm -f "$to_include/dsss.h" "$to_lib/libdsss.a" "$to_lib/pkgconfig/dsss.pc" "$to_bin/month" "$to_doc/LICENSE"
    rmdir "$to_doc" 2>/dev/null || : # which only the licence was in
    ;;
*) say 'usage: install.sh look|install|uninstall' ;;
esac
