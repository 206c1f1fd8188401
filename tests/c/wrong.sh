#!/usr/bin/env bash
# wrong.sh OUT LIB: the test with each wrong call of wrong.c must fail, and name that call.
set -u
out=$1 lib=$2
wrong=(mop_read mop_read mop_read mop_write_loop mop_write_loop mop_write_loop mop_image_check
    mop_machine_frame mop_machine_frame mop_load_timer mop_load_timer mop_dump_frame
    mop_load_update_frame mop_dump_update_timer mop_dump_update_timer mop_machine_frame
    mop_load_timer mop_load_update_frame mop_load_timer mop_machine_frame mop_machine_frame
    mop_machine_frame mop_machine_frame mop_machine_frame mop_machine_frame mop_machine_frame
    mop_machine_frame mop_machine_frame mop_machine_frame mop_machine_frame
    mop_machine_timer mop_machine_timer mop_machine_timer mop_machine_timer
    mop_machine_frame mop_machine_frame mop_machine_frame mop_machine_frame mop_machine_frame
    mop_machine_frame mop_machine_frame mop_machine_frame mop_machine_frame mop_machine_frame
    mop_machine_frame mop_machine_frame mop_machine_timer mop_machine_timer mop_machine_timer
    mop_read mop_load_timer mop_load_update_frame mop_load_update_frame mop_load_update_frame
    mop_load_update_frame mop_load_update_frame mop_load_timer mop_load_timer mop_dump_frame mop_dump_frame
    mop_dump_update_timer mop_dump_update_timer mop_dump_update_timer
    mop_load_update_frame mop_load_update_frame mop_load_update_frame mop_load_update_frame mop_load_update_frame
    mop_load_update_frame mop_load_update_frame mop_load_update_frame mop_load_timer mop_load_timer mop_load_timer
    mop_load_timer mop_load_timer mop_load_timer mop_load_timer mop_load_timer mop_load_timer
    mop_image_check mop_image_check mop_image_check mop_image_check mop_image_check mop_load_timer mop_load_update_frame)
found=0
for i in "${!wrong[@]}"; do
    n=$((i + 1)) call=${wrong[$i]}
    gcc -std=c11 -Wall -Wextra -Werror -O1 -Iinclude -DWRONG=$n -Wl,--wrap="$call" \
        -o "$out/wrong" "$out"/guards_*.o tests/c/wrong.c "$lib" || exit 1
    said=$("$out/wrong" 5 2>&1)
    if [ $? != 0 ] && grep -qE "^(FAILED:|FAULT in) .*$call" <<<"$said"; then
        found=$((found + 1))
    else
        echo "wrong: number $n, in $call, was not found"
    fi
done
rm -f "$out/wrong"
echo "wrong: $found of ${#wrong[@]} wrong calls found"
[ "$found" = "${#wrong[@]}" ]
