#!/bin/sh
# packages.sh demo|test: installs the Debian packages that the demo, or all tests and benchmarks, need.
#
# Looks for the Rattle kit's command rt first, which is in no package: without it nothing is installed, and the status
# is 1. Then for each tool; if all are there it installs nothing, uses no network and is done at once. Before it
# installs anything it says which packages and why. With DSSS_NO_PACKAGES set it only says so and fails.
set -eu

purpose=${1:-}
case $purpose in
demo | test) ;;
*)
    echo 'usage: packages.sh demo|test' >&2
    exit 2
    ;;
esac

command -v rt >/dev/null 2>&1 || {
    echo 'packages.sh: rt is not on PATH: it is the command of the Rattle kit, which no package has.' \
        'README.md, "The two commands", says what the kit is; put its bin/ on PATH.' >&2
    exit 1
}

packages=
want() { # want PACKAGE WHY: one that is missing
    case " $packages " in
    *" $1 "*) ;;
    *)
        packages="$packages $1"
        echo "packages.sh: $1 is missing: $2"
        ;;
    esac
}
tool() { # tool COMMAND PACKAGE WHY
    command -v "$1" >/dev/null 2>&1 || want "$2" "$3"
}

[ -f /usr/include/stdio.h ] || want libc6-dev 'the headers of the C library, for every C program here'
if [ "$(uname -m)" = x86_64 ]; then
    tool cc gcc 'compiles the C programs'
else
    tool clang clang 'compiles the C programs for x86-64 on this processor'
fi
if [ "$purpose" = test ]; then
    tool cc gcc 'compiles the C programs that run on this processor: tests of the header and of the tests'
    tool c++ g++ 'holds the header to C++'
    tool make make 'runs the targets'
    tool git git 'names the files of the tree, for the scripts that look at its text'
    tool readelf binutils 'looks at what the library keeps and wants'
    tool python3 python3 'runs the scripts that hold the tree, the header and the vectors to the source'
    tool rustc rustc 'compiles the second program'
    tool pkg-config pkg-config 'tries the installed pkg-config file'
    [ "$(uname -m)" != x86_64 ] || tool valgrind valgrind 'runs the library under fault, and counts instructions'
fi

[ -n "$packages" ] || exit 0

if [ -n "${DSSS_NO_PACKAGES:-}" ] || ! command -v apt-get >/dev/null 2>&1; then
    echo "packages.sh: install what Debian calls:$packages" >&2
    exit 1
fi
as_root=
if [ "$(id -u)" -ne 0 ]; then
    if ! command -v sudo >/dev/null 2>&1; then
        echo "packages.sh: neither root nor sudo; as root: apt-get install$packages" >&2
        exit 1
    fi
    as_root=sudo
fi
echo "packages.sh: installing$packages"
# shellcheck disable=SC2086 # a list of names
if ! $as_root apt-get -qq update ||
    ! $as_root env DEBIAN_FRONTEND=noninteractive apt-get -qq -y install --no-install-recommends \
        $packages; then
    echo "packages.sh: could not install$packages: see above, and whether there is a network" >&2
    exit 1
fi
