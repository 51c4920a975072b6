#!/bin/sh
# Does a page quote a file as it is? Each fenced block of the page that has this mark must stand in the file, line by line; there
# must be one, and none is empty. With 'all' the page has no other fenced block.
# Usage: quoted.sh PAGE MARK FILE [all]
awk -v mark="\`\`\`$2" -v file="$3" -v page="$1" -v all="$4" '
    BEGIN { whole = "\n"; while ((getline line <file) > 0) whole = whole line "\n" }
    inside && $0 == "```" {
        blocks++; inside = 0
        if (block == "\n" || !index(whole, block)) { print page ", line " from ": not in " file; bad = 1 }
        next
    }
    inside { block = block $0 "\n" }
    all && !inside && /^```/ && $0 != mark { print page ", line " NR ": not marked " mark; bad = 1 }
    $0 == mark { inside = 1; block = "\n"; from = NR }
    END {
        if (!blocks || inside) { print page ": no whole block marked " mark; bad = 1 }
        exit bad
    }' "$1"
