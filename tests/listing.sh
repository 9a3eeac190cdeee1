#!/usr/bin/env bash
# Builds each program of examples/ in both forms, and looks at the status and the shape of the listing: a line for each
# word, with the addresses 0, 4, 8 and so on, and the end service first. A program that is refused is refused by `build`
# as by `check`. Then it tries tools/disassemble, as far as that needs no objdump. CILKM may name the program in place of
# the launcher.
# One line a case that fails; the last line is 'N passed, M failed', and the status is 0 where M is 0.
set -u
export LC_ALL=C

top=$(cd "$(dirname "$0")/.." && pwd)
program=${CILKM:-$top/cilkm}
room=$(mktemp -d) || exit 1
trap 'rm -rf "$room"' EXIT
passed=0
failed=0

# Counts a case, by whether a condition held.
count() {
    if [ "$1" = 0 ]; then
        passed=$((passed + 1))
    else
        failed=$((failed + 1))
        echo "listing: $2 ... FAILED"
    fi
}

# Whether standard input is a listing, of more words than the end service and a table of one function.
is_listing() {
    awk '
        { if ($0 !~ /^[0-9a-f]+ [0-9a-f]+$/ || length($0) != 17 || $1 != sprintf("%08x", 4 * (NR - 1))) wrong = 1 }
        NR == 1 && $2 != "00000f93" || NR == 2 && $2 != "00000073" { wrong = 1 }
        END { exit wrong || NR <= 3 }'
}

for source in "$top"/examples/*.cilk; do
    name=${source##*/}
    for form in 0 1; do
        "$program" build serial=$form <"$source" >"$room/listing"
        status=$?
        if [ -e "${source%.cilk}.answer" ]; then
            [ "$status" = 0 ] && is_listing <"$room/listing"
        else
            [ "$status" = 1 ] && "$program" check <"$source" | cmp -s - "$room/listing"
        fi
        count $? "$name serial=$form"
    done
done

"$top/tools/disassemble" more </dev/null 2>"$room/said"
[ $? = 2 ] && grep -q '^usage' "$room/said"
count $? 'tools/disassemble with a word'
"$top/tools/disassemble" <"$top/README.md" 2>"$room/said"
[ $? = 65 ] && grep -q 'no listing' "$room/said"
count $? 'tools/disassemble of what is no listing'
mkdir "$room/bin"
for it in cat grep mktemp rm; do
    ln -s "$(command -v $it)" "$room/bin"
done
echo '00000000 00000f93' | PATH=$room/bin "$BASH" "$top/tools/disassemble" 2>"$room/said"
[ $? = 69 ] && grep -q 'binutils-riscv64-unknown-elf' "$room/said"
count $? 'tools/disassemble with no objdump'

echo "$passed passed, $failed failed"
[ "$failed" = 0 ] && [ "$passed" -gt 0 ]
