#!/usr/bin/env bash
# numbers.sh OUT LIB: numbers.c passes with the header, and fails with a header in which one number is another: each in turn, one
# more and, above 0, one less.
set -u
out=$1/numbers lib=$2
mkdir -p "$out"
try() { gcc -std=c11 -I"$1" -o "$out/numbers" tests/c/numbers.c "$lib" 2>"$out/said" && "$out/numbers" >>"$out/said" 2>&1; }

try include || { cat "$out/said"; exit 1; }
all=0 found=0
while read -r name _ number; do
    for other in $((number + 1)) $((number - 1)); do
        [ "$other" -ge 0 ] || continue
        sed "s/^    $name = $number\b/    $name = $other/" include/mop.h >"$out/mop.h"
        all=$((all + 1))
        if try "$out"; then
            echo "numbers: $name = $other was not found"
        else
            found=$((found + 1))
        fi
    done
done < <(grep -oE '^    MOP_[A-Z0-9_]+ = [0-9]+' include/mop.h)
echo "numbers: $found of $all wrong numbers found"
[ "$found" = "$all" ]
