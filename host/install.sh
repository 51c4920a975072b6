#!/bin/sh
# Puts the product where other programs find it, or takes it away again. DESTDIR may have spaces in it; one that does not begin with / is
# seen from the root of this tree.
# Usage: DESTDIR=.. PREFIX=.. VERSION=.. LIB=.. BIN=.. install.sh put|take, from the folder host
set -e
umask 022
case $PREFIX in
*[!A-Za-z0-9/._+-]* | [!/]*)
    echo "PREFIX must begin with / and have no spaces or signs in it, and is '$PREFIX'" >&2
    exit 1
    ;;
esac
case $DESTDIR in
[!/]*) DESTDIR=$(cd .. && pwd)/$DESTDIR ;;
esac
to=$DESTDIR$PREFIX

put() { # MODE FILE FOLDER NAME
    mkdir -p "$to/$3"
    install -m "$1" "$2" "$to/$3/$4"
}

put_filled() { # MODE FILE FOLDER NAME
    sed -e "s|@PREFIX@|$PREFIX|" -e "s|@VERSION@|$VERSION|" "$2" >"$work"
    put "$1" "$work" "$3" "$4"
}

take() { # MODE FILE FOLDER NAME
    rm -f "$to/$3/$4"
}

each() { # PUT PUT_FILLED
    for file in ../include/*.h; do $1 644 "$file" include "${file##*/}"; done
    for tool in tmavolice-plan tmavolice-image; do $1 755 "$BIN/$tool" bin $tool; done
    for page in ../packaging/man/*; do $2 644 "$page" "share/man/man${page##*.}" "${page##*/}"; done
    $2 644 ../packaging/tmavolice.pc.in lib/pkgconfig tmavolice.pc
    $1 644 "$LIB" lib libtmavolice.a
}

case $1 in
put)
    work=$(mktemp)
    trap 'rm -f "$work"' EXIT
    each put put_filled
    echo "tmavolice $VERSION is in $to"
    ;;
*) each take take ;;
esac
