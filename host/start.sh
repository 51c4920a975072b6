#!/bin/sh
# Runs a program that is linked with the library for x86-64: there as it is, on another machine on the kit's emulator, with the kit's loader
# and C library. The processor is a plain one: what later ones have for copies, the C library would use, and the emulator is slow at.
# Usage: start.sh PROGRAM [WORD..]
machine=$(uname -m)
[ "$machine" != x86_64 ] || exec "$@"
tools=$(dirname "$(rt doc)")/on/$machine/toolchain
[ -d "$tools" ] || { echo "this kit has no emulator for $machine: it is for x86-64" >&2; exit 1; }
exec "$tools/bin/qemu-x86_64" -cpu qemu64 "$tools/lib/ld-linux-x86-64.so.2" --library-path "$tools/lib" "$@"
