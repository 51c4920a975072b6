#!/bin/sh
# Is what a command needs there, and new enough? Says in one line each what is missing. The kit may be another one than that which the
# proofs were checked with last: that is said, and goes on.
# Usage: needs.sh [PROGRAM..], of rt gcc g++ clang cargo pkg-config
logics='064da1ca440f63e7 097e4c862dff5811 dac8208d650f15bf' # of the kits that the proofs were checked with, the last one as they stand
missing=0

# The version of a program, its first number with a dot.
version_of() { # PROGRAM
    case $1 in
    gcc | g++) "$1" -dumpfullversion -dumpversion 2>/dev/null && return ;;
    esac
    "$1" --version 2>/dev/null | sed -n 's/^[^0-9]*\([0-9][0-9]*\.[0-9][0-9.]*\).*/\1/p' | head -n 1
}

is_at_least() { # VERSION LEAST
    [ "$(printf '%s\n%s\n' "$1" "$2" | sort -t . -k 1,1n -k 2,2n | head -n 1)" = "$2" ]
}

lacks() { # WORD..
    echo "$*" >&2
    missing=1
}

need() { # PROGRAM LEAST FROM
    version=$(version_of "$1")
    if [ -z "$version" ]; then
        lacks "$1 is needed, version $2 or later, and is not there: $3"
    elif ! is_at_least "$version" "$2"; then
        lacks "$1 is needed, version $2 or later, and is $version: $3"
    fi
}

machine=$(uname -m)
for each; do
    case $each in
    rt)
        [ "$machine" = x86_64 ] || lacks "the kit is for x86-64, and this machine is $machine: nothing can be built here"
        if ! command -v rt >/dev/null; then
            lacks "rt is needed: put the Rattle kit's folder bin on the path"
        elif [ "$(rt version | sed 's/.* //')" != "${logics##* }" ]; then
            echo "the proofs were checked with the kit of logic ${logics##* }, and here is $(rt version): they may not pass" >&2
        fi
        ;;
    cargo) need cargo 1.82 'from rustup.rs, or a package' ;;
    clang) need clang 13.0 'on this machine it compiles for x86-64; package clang' ;;
    pkg-config) need pkg-config 0.29 'package pkg-config' ;;
    *) need "$each" 9.0 "package $each" ;;
    esac
done
exit $missing
