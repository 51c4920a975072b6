#!/bin/sh
# Proves these crates, or all, and those that they use, and builds them: what crates above use, out/libNAME.a of a static library, out/NAME
# of a program. Says so as each is proved; what has not changed since is not proved again. In crates.txt a crate stands below those that
# it uses.
# Usage: prove.sh [CRATE..]
cd "$(dirname "$0")/.." || exit 1
wanted=$(sed 's/ *#.*//; s/ staticlib *:/:/' crates.txt | awk -F: -v named="$*" '
    { name[NR] = $1; uses[NR] = $2 }
    END {
        for (count = split(named, each, " "); count; count--) is_wanted[each[count]]
        for (line = NR; line; line--)
            if (named == "" || name[line] in is_wanted)
                for (count = split(name[line] " " uses[line], each, " "); count; count--) is_wanted[each[count]]
        for (line = 1; line <= NR; line++) if (name[line] in is_wanted) print name[line]
    }')
# shellcheck disable=SC2086
set -- $wanted
said=$(mktemp) || exit 1
trap 'rm -f "$said"' EXIT
began=$(date +%s) number=0

# To be built, a program is run, on no input: what it prints is looked at by others.
prove() { # CRATE
    cd "crates/$1" || return
    if [ -e src/main.rt ]; then rt run; else rt lib; fi </dev/null >"$said" 2>&1 || { cat "$said"; return 1; }
}

for crate; do
    (prove "$crate") || exit 1
    number=$((number + 1)) seconds=$(($(date +%s) - began))
    echo "  $number of $# crates proved, $((seconds / 60)) min $((seconds % 60)) s: $crate"
done
