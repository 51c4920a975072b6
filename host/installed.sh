#!/bin/sh
# Is the product usable once it is installed? Installs it below a folder of its own, builds the example outside the tree with what
# pkg-config says and nothing else, runs it and both tools, and takes all of it away again.
cd "$(dirname "$0")/.." || exit 1
root=$PWD
unset DESTDIR
stage=$(mktemp -d) || exit 1
trap 'rm -rf "$stage"' EXIT
version=$(sed -n 's/^#define TMAVOLICE_VERSION "\(.*\)"/\1/p' include/tmavolice.h)

fail() { # WORD..
    echo "installed: $*"
    exit 1
}

make -s install PREFIX="$stage/usr" || fail 'make install'
export PKG_CONFIG_PATH="$stage/usr/lib/pkgconfig"
[ "$(pkg-config --modversion tmavolice)" = "$version" ] || fail "pkg-config has not version $version"
grep -q "^## $version\$" CHANGELOG.md || fail "CHANGELOG.md has no version $version"

for page in packaging/man/*; do
    [ -s "$stage/usr/share/man/man${page##*.}/${page##*/}" ] || fail "$page is not installed"
done
grep -rq '@VERSION@\|@PREFIX@' "$stage/usr/share" "$stage/usr/lib/pkgconfig" && fail 'a name is not filled in'

mkdir "$stage/program"
cp host/example/*.c host/example/*.h host/example/stdout "$stage/program"
cd "$stage/program" || exit 1
# shellcheck disable=SC2046
gcc -o example ./*.c $(pkg-config --cflags --libs tmavolice) || fail 'the example is not built by pkg-config alone'
./example | diff stdout - || fail 'the example'

printf 'port\t1\tuni\t020000000001\n' >good.plan
printf 'port\t1\tuni\t020000000001\nflow\t1\t2\tu\t0\n' >faulty.plan
"$stage/usr/bin/tmavolice-plan" good.plan >said || fail 'a good plan is refused'
"$stage/usr/bin/tmavolice-plan" faulty.plan >said && fail 'a faulty plan is good'
grep -q '^faulty.plan:2:8: ' said || fail 'the place of a fault'
head -c 4096 /dev/zero | "$stage/usr/bin/tmavolice-image" >said && fail 'zeros are an image'

cd "$root" || exit 1
make -s install DESTDIR="$stage/dest dir" PREFIX=/opt/tmavolice || fail 'make install with DESTDIR'
grep -q '^prefix=/opt/tmavolice$' "$stage/dest dir/opt/tmavolice/lib/pkgconfig/tmavolice.pc" || fail 'the prefix behind DESTDIR'
for prefix in stage '/opt/a b'; do
    make -s install DESTDIR="$stage/other" PREFIX="$prefix" 2>/dev/null && fail "a prefix of '$prefix' is taken"
done
make -s uninstall PREFIX="$stage/usr" || fail 'make uninstall'
make -s uninstall DESTDIR="$stage/dest dir" PREFIX=/opt/tmavolice || fail 'make uninstall with DESTDIR'
[ ! -e "$stage/other" ] || fail 'a prefix that is refused leaves something behind'
left=$(find "$stage/usr" "$stage/dest dir" -type f)
[ -z "$left" ] || fail "left behind: $left"
