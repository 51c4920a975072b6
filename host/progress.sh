#!/bin/sh
# Reads what `rt ci` or `cargo test` writes and shows how far it is: a line as each crate is proved and each file of tests passed, with
# how many of how many and the time so far, and a line for the edits of must-fail/, which `rt ci` tells at its end. What goes wrong is
# shown at once, and at the end all that was read. The status is 0 only where rt said that all is well, with every edit refused and none
# bad, or all tests passed.
# Usage: COMMAND 2>&1 | progress.sh CRATES_OR_TESTS [EDITS]
began=$(date +%s)
all=$(mktemp) || exit 1
trap 'rm -f "$all"' EXIT
steps=0 edits=0 is_well=false is_wrong=false

show() { # HOW_MANY OF_HOW_MANY WHAT NAME
    seconds=$(($(date +%s) - began))
    echo "  $1 of $2 $3, $((seconds / 60)) min $((seconds % 60)) s: $4"
}

while IFS= read -r line || [ -n "$line" ]; do
    printf '%s\n' "$line" >>"$all"
    case $line in
    'rt: ok; '*', '[1-9]*' bad; '*)
        is_wrong=true
        printf '%s\n' "$line"
        ;;
    'rt: ok; '*)
        is_well=true
        printf '%s\n' "$line"
        ;;
    'rt: '*'FAILED'* | 'rt: '*' NOT PROVED'* | 'rt: '*'NOT REFUSED'* | 'rt: '*'BAD EDIT'* | 'rt: '*'NOT TRIED'* | 'test '*' FAILED'* | error*)
        is_wrong=true
        printf '%s\n' "$line"
        ;;
    'rt: '*': its tests are proved') ;;
    'rt: '*' proved' | 'rt: '*' is kept: '*)
        steps=$((steps + 1)) name=${line#rt: }
        show "$steps" "$1" 'crates proved' "${name%% *}"
        ;;
    'rt: must-fail '*': refused, '*) edits=$((edits + 1)) ;;
    '     Running '*) file=${line#     Running } ;;
    'test result: ok. 0 '*) ;;
    'test result: ok. '*)
        # a crate's own tests: rt counts them itself
        [ -z "$2" ] || continue
        passed=${line#test result: ok. }
        steps=$((steps + ${passed%% *}))
        show "$steps" "$1" 'tests passed' "${file%% (*}"
        [ "$steps" -lt "$1" ] || is_well=true
        ;;
    esac
done
[ -z "$2" ] || [ "$edits" -eq "$2" ] || { is_wrong=true && echo "$edits of $2 edits of must-fail/ were refused"; }

if $is_wrong || ! $is_well; then
    cat "$all"
    exit 1
fi
