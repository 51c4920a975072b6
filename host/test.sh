#!/bin/sh
# Every check. First the gate of the kit, rt ci: the layout of the files, every proof, the wrong programs of must-fail/ and every program;
# then the wrong programs, many in one check; then the host's programs and tests, on the library as a host links it. Each says how far it
# is. The last line is the sum: 'N passed, M failed'.
cd "$(dirname "$0")/.." || exit 1
out=$(mktemp) && status=$(mktemp) || exit 1
trap 'rm -f "$out" "$status"' EXIT
began=$(date +%s)
passed=0 failed=0

# The next part of the test.
part() { # NAME
    seconds=$(($(date +%s) - began))
    echo "== $1 (after $((seconds / 60)) min $((seconds % 60)) s)"
}

# Adds what a run reported; a run that reported nothing has failed.
add() { # PASSED FAILED
    passed=$((passed + ${1:-0})) failed=$((failed + ${2:-1}))
}

# The last line of what was written, if it is a sum.
sum() {
    sed -n '$s/^\([0-9]*\) passed, \([0-9]*\) failed$/\1 \2/p' "$out"
}

# One check, by its exit status.
check() { # COMMAND..
    if "$@"; then add 1 0; else echo "failed: $*"; add 0 1; fi
}

# Does a program write what its file says, and end well?
writes() { # PROGRAM FILE
    host/start.sh "$1" >"$out"
    ended=$?
    diff "$2" "$out" && [ "$ended" -eq 0 ]
}

# Does a program answer a log, from the folder of its plan, as its file says?
answers() { # PROGRAM LOG FILE
    (cd "$(dirname "$2")" && "$OLDPWD/host/start.sh" "$OLDPWD/$1" <"$OLDPWD/$2") >"$out"
    ended=$?
    diff "$3" "$out" && [ "$ended" -eq 0 ]
}

tests() {
    (cd host && cargo test --release --offline "$@" 2>&1)
}

part 'The layout, every proof, the wrong programs of must-fail/ and every program'
edits=$(find crates/*/must-fail -name '*.edit' | wc -l)
{
    rt ci 2>&1
    echo $? >"$status"
} | tee "$out" | host/progress.sh "$(grep -c '^[a-z]' crates.txt)" "$edits"
# An edit that can't be applied or read fails nothing there, and fails here.
bad=$(sed -n 's/^rt: ok; .* must-fail edits: [^;]*, \([0-9]*\) bad; .*/\1/p' "$out")
refused=$(sed -n 's/^rt: ok; .* must-fail edits: \([0-9]*\) refused.*/\1/p' "$out")
# shellcheck disable=SC2046
set -- $(sum)
[ "$(cat "$status")" = 0 ] || [ "${2:-1}" -ne 0 ] || set -- "$1" 1
add "$1" "$2"
add 0 "${bad:-0}"
[ "${refused:-0}" -eq "$edits" ] || [ -n "$bad" ] || [ "${2:-1}" -ne 0 ] || add 0 1

part 'The wrong programs, many in one check'
(cd host && cargo run --release --offline -q -p wrong 2>&1) | tee "$out"
# shellcheck disable=SC2046
add $(sum)

part "The library and the host's programs"
check make -s -C host library programs
check make -s -C host check
check host/start.sh target/host/header_c
check host/start.sh target/host/header_cpp
check host/start.sh target/host/names_c
check host/start.sh target/host/names_cpp
check writes target/host/run host/run/stdout
check writes target/host/example host/example/stdout
check writes target/host/switch host/switch/stdout
check answers target/bin/shift host/shift/log host/shift/answers
check host/quoted.sh README.md text host/run/stdout
check host/quoted.sh README.md log host/shift/log
check host/quoted.sh README.md answers host/shift/answers
check host/quoted.sh docs/BENCH.md text host/run/stdout all
check host/quoted.sh docs/SHIFT.md log host/shift/log
check host/quoted.sh docs/SHIFT.md answers host/shift/answers
check host/quoted.sh docs/HOST.md c host/example/host.c all
check host/quoted.sh docs/TRUST.md rt crates/tmavolice_c/src/lib.rt all
check host/quoted.sh README.md c host/readme/ten.c
check make -s tools
check host/tools.sh
check host/installed.sh

part "The host's tests"
tests --no-run >"$out" || cat "$out"
count=$(tests -- --list | grep -c ': test$')
tests | tee "$out" | host/progress.sh "$count"
grep '^[a-z]*: ' "$out"
# shellcheck disable=SC2046
add $(sed -n 's/^test result: .* \([0-9]*\) passed; \([0-9]*\) failed;.*/\1 \2/p' "$out" |
    awk '{ p += $1; f += $2 } END { if (NR) print p, f }')

part 'All'
echo "$passed passed, $failed failed"
[ "$failed" -eq 0 ]
