#!/bin/sh
# A crate proved and written as a library, or a program as an object, for a machine that is not x86-64. The kit compiles for x86-64 only,
# and hands the module that it made of the proved code to the clang of its toolchain. Here it is handed a toolchain whose clang compiles
# that module for this machine, with the same options but for the target. The crates that it uses have been proved before.
# Usage: native.sh CRATE LIBRARY.a, or native.sh PROGRAM OBJECT.o, from the folder host
crate=$1 written=$2
machine=$(uname -m)
kit=$(dirname "$(rt doc)")
own=$kit/on/$machine
[ -d "$own" ] || { echo "the kit has nothing for $machine: it is for x86-64" >&2; exit 1; }
tools=$own/toolchain
root=$(cd .. && pwd -P)
work=$(mktemp -d) || exit 1
trap 'rm -rf "$work"' EXIT

mkdir "$work/bin"
ln -s "$(cd "$tools/lib" && pwd -P)" "$work/lib"
for tool in llvm-ar ld.lld; do
    printf '#!/bin/sh\nexec %s "$@"\n' "$tools/bin/$tool" >"$work/bin/$tool"
done

# The lines of a module that name its target, as this machine has them. They stand in the place of the module's own, with no processor
# named; all other words go on to the kit's clang as they are.
echo | "$tools/bin/clang" "--target=$machine-unknown-linux-gnu" -S -emit-llvm -x c - -o - | grep '^target ' >"$work/target"
cat >"$work/bin/clang" <<END
#!/bin/sh
for word; do
    shift
    case \$word in
    --target=*) word=--target=$machine-unknown-linux-gnu ;;
    -march=*) continue ;;
    *.bc)
        $tools/bin/clang --target=x86_64-unknown-linux-gnu -S -emit-llvm -O3 -Xclang -disable-llvm-passes -x ir "\$word" -o x86.ll || exit
        sed -e '/^target /d' -e 's/"[a-z]*-cpu"="[^"]*"//g' -e 's/"target-features"="[^"]*"//g' x86.ll | cat $work/target - >native.ll
        word=native.ll
        ;;
    esac
    set -- "\$@" "\$word"
done
exec $tools/bin/clang "\$@"
END
chmod +x "$work"/bin/*

case $written in
*.a) file=lib.rt kind='--crate-type staticlib' ;;
*) file=main.rt kind= ;;
esac
set -- --crate-name "$crate" "$root/crates/$crate/src/$file" --extern "std=$own/rlib/std.rlib"
used=$(sed -n "s/^$crate: *//p" "$root/crates.txt")
for each in $used; do
    # a crate of ours, or one of the kit's
    folder=$root/target/rlib
    [ -e "$folder/$each.rlib" ] || folder=$own/rlib
    set -- "$@" --extern "$each=$folder/$each.rlib"
done
set -- "$@" -L "dependency=$root/target/rlib" -L "dependency=$own/rlib"
set -- "$@" --antt-project "$kit/logic/antt-project.json" --logic-built "$own/logic-built"
mkdir -p "$(dirname "$written")"
# shellcheck disable=SC2086
"$own/bin/rattle" build $kind --toolchain "$work" -o "$written" "$@" >"$work/said" 2>&1 || { cat "$work/said"; exit 1; }
