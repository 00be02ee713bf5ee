#!/bin/sh
# The archive holds no table of the fifteen powers of two, by tools/constants. That finds such a table in archives that
# have one, of 16, 32 and 64 bits, rising, falling and amid other numbers, among the constants and in code that stores it,
# and none where there are eleven of them or other numbers. $1 is the repository, $2 the archive.
set -eu
repo=$1
archive=$2
work=$(mktemp -d)
trap 'rm -rf "$work"' EXIT

# expect STATUS BITS NUMBERS: what tools/constants answers on an archive whose constants are these, from byte 1 on, and on
# one of a function that has them in an array of its own.
expect() {
    count=$(echo "$3" | tr ',' '\n' | wc -l)
    printf '#include <stdint.h>\nstruct __attribute__((packed)) { char odd; int%s_t numbers[%s]; } const table = {7, {%s}};\n' \
        "$2" "$count" "$3" >"$work/constants.c"
    printf '#include <stdint.h>\nint%s_t at(uint32_t i) { volatile int%s_t numbers[%s] = {%s}; return numbers[i %% %s]; }\n' \
        "$2" "$2" "$count" "$3" "$count" >"$work/code.c"
    for name in code constants; do
        cc -std=gnu99 -Wall -Werror -O1 -c -o "$work/$name.o" "$work/$name.c"
        rm -f "$work/$name.a"
        ar cr "$work/$name.a" "$work/$name.o"
        status=0
        "$repo/tools/constants" "$work/$name.a" >"$work/out" || status=$?
        [ "$status" -eq "$1" ] || { echo "constants: $name: $3 of $2 bits gives $status"; exit 1; }
    done
    [ "$1" -eq 0 ] || grep -q "^a table .* every $(($2 / 8)) bytes: " "$work/out" || { cat "$work/out"; exit 1; }
}

eleven=1,2,4,8,16,32,64,128,256,512,1024
all=$eleven,2048,4096,8192,16384
for bits in 16 32 64; do
    expect 1 $bits $all
    expect 1 $bits 16384,8192,4096,2048,1024,512,256,128,64,32,16,8,4,2,1
    expect 1 $bits 3,0,$all,32767
    expect 0 $bits $eleven
    expect 0 $bits 3,9,27,81,243,729,2187,6561,19683,59,177,531,1593,4779,14337
done
"$repo/tools/constants" "$archive" >"$work/out" || { cat "$work/out"; exit 1; }
echo "constants: $(tail -n 2 "$work/out" | paste -sd ';' | sed 's/;/, /')"
