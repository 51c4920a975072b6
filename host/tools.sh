#!/bin/sh
# Do the tools say what they should? tmavolice-plan on each plan of host/plan/cases, the words that show the lines left out;
# tmavolice-image on the image of docs/LAYOUT.md; both as their man pages show, and on odd input.
cd "$(dirname "$0")/.." || exit 1
plans=target/tools/tmavolice-plan images=target/tools/tmavolice-image
folder=$(mktemp -d) || exit 1
trap 'rm -rf "$folder"' EXIT
said=$folder/said image=$folder/unit.image plan=$folder/unit.plan
cases=0 failed=0

wrong() { # WORD..
    echo "tools: $*"
    failed=1
}

# A line "plan: TEXT", as printf has it, and then a line "says: WORDS" for each that it prints.
while IFS= read -r line; do
    case $line in
    'plan: '*)
        cases=$((cases + 1))
        # shellcheck disable=SC2059
        printf "${line#plan: }" | $plans | sed -n 's/^standard input: *//p' >"$said"
        about=${line#plan: }
        ;;
    'says: '*)
        [ "$(head -n 1 "$said")" = "${line#says: }" ] || wrong "$about: $(head -n 1 "$said")"
        sed -i 1d "$said"
        ;;
    *) wrong "cases: $line" ;;
    esac
done <host/plan/cases
[ "$cases" -ge 40 ] || wrong "only $cases cases"

# Is what was said the example of a man page, below its command?
shown() { # PAGE
    sed -n '/^\$ /,/^\.fi/p' "packaging/man/$1" | sed '1d;$d' | diff - "$said" || wrong "$1 has another example"
}

# Octets of an image, written from this one on.
put() { # AT HEX..
    at=$1
    shift
    for octet; do printf %b "\\0$(printf %o "0x$octet")"; done | dd of="$image" bs=1 seek="$at" conv=notrunc status=none
}

printf 'port\t1\tuni\t020000000001\nflow\t1\t1\tc\t20\nflow\t2\t1\tc\t20\n' >"$plan"
$plans "$plan" | sed "s|^$folder/||" >"$said"
shown tmavolice-plan.1

head -c 4096 /dev/zero >"$image"
sed -n 's/^ *\([0-9][0-9]*\) \( [0-9A-F ]*[0-9A-F]\) .*/\1 \2/p' docs/LAYOUT.md >"$said"
while read -r row; do
    # shellcheck disable=SC2086
    put $row
done <"$said"
$images "$image" >"$said" || wrong 'the image of LAYOUT.md is refused'
shown tmavolice-image.1
put 1544 0 0 0 0 8
$images "$image" | grep -q ', closed, a notice with code 8 is due$' || wrong 'a notice that is due'
put 5 1
$images "$image" | head -n 1 | grep -q '^not a valid image' || wrong 'an image with octet 5 changed'

ends() { # STATUS COMMAND..
    wanted=$1
    shift
    "$@" >"$said" 2>&1 </dev/null
    ended=$?
    [ "$ended" -eq "$wanted" ] || wrong "$* ended with $ended: $(head -n 1 "$said")"
}

ends 0 $plans --help
ends 0 $images --version
ends 2 $plans a b
ends 2 $images -x
ends 2 $plans /nonexistent
ends 2 $images /
ends 1 $plans -
ends 1 $images -
# Forty MPs on five flows.
many_mps() {
    printf 'port\t1\tuni\t020000000001\n'
    for flow in 1 2 3 4 5; do
        printf 'flow\t%s\t1\tc\t%s\n' $flow $flow
        for level in 0 1 2 3 4 5 6 7; do printf 'mp\t%s\tup\t%s\n' $flow $level; done
    done
}

many_mps | $plans | grep -q ':39:1: this is the 33rd MP' || wrong 'the 33rd MP'
: | $plans | grep -q ': an empty plan' || wrong 'an empty plan'
head -c 8193 /dev/zero | $plans | grep -q ': a plan has at most 8,192 octets' || wrong 'a plan of 8,193 octets'
head -c 4096 /dev/zero | $images | grep -q '^all octets are 00' || wrong 'an image of zeros'
printf 'port\t1\tuni\t020000000001\n' | $plans >/dev/full 2>"$said" && wrong 'a full disk is not noticed'
exit $failed
