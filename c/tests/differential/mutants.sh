#!/bin/sh
# mutants.sh - would the comparison notice a mistake? Each entry of mutants.txt puts one mistake into a copy of
# reference.c; the driver must then report a mismatch with the library. A failed build, a crash or an answer that was
# not met does not count. Its last line is "N mutants, N noticed".
#
# usage: mutants.sh [LIBRARY [CASES]]     build/libpivsm.a, 20000 cases for each mistake
cd "$(dirname "$0")/../../.." || exit 2
library=${1:-build/libpivsm.a}
cases=${2:-20000}
flags='-std=c99 -Wall -Wextra -Wpedantic -Ic/include -Ic/tests'
work=$(mktemp -d) || exit 2
trap 'rm -rf "$work"' EXIT

for source in c/tests/differential/*.c; do
    name=$(basename "$source" .c)
    [ "$name" = vectors ] || gcc $flags -O2 -c -o "$work/$name.o" "$source" || exit 2
done

# One file for each entry, the empty lines between them gone.
awk -v RS= -v work="$work" '/\nold: / { print > (work "/" ++n ".txt") }' c/tests/differential/mutants.txt
all=$(ls "$work" | grep -c '\.txt$')

# Replace the old text by the new one; fail unless it occurs exactly once.
apply() {
    awk -v mutant="$1" '
        BEGIN {
            while ((getline line < mutant) > 0) {
                if (index(line, "old: ") == 1) old = substr(line, 6)
                if (index(line, "new: ") == 1) new = substr(line, 6)
            }
        }
        {
            rest = $0; out = ""
            while ((at = index(rest, old)) > 0) {
                out = out substr(rest, 1, at - 1) new
                rest = substr(rest, at + length(old)); found++
            }
            print out rest
        }
        END { exit found == 1 ? 0 : 1 }' c/tests/reference.c > "$work/mutant.c"
}

noticed=0
for n in $(seq "$all"); do
    what=$(sed -n 's/^# //p' "$work/$n.txt")
    if ! apply "$work/$n.txt"; then
        echo "NOT APPLIED  $what: its old text does not occur exactly once"
    elif ! gcc $flags -w -O1 -o "$work/mutant" "$work/mutant.c" "$work"/*.o "$library" -lcrypto 2> "$work/errors"; then
        echo "NOT BUILT    $what: $(head -n 1 "$work/errors")"
    else
        "$work/mutant" "$cases" > "$work/output" 2>&1
        status=$?
        if [ $status -eq 1 ] && grep -q '^MISMATCH' "$work/output"; then
            noticed=$((noticed + 1))
            echo "noticed      $what: $(grep '^MISMATCH' "$work/output" | cut -d, -f2-)"
        else
            echo "NOT NOTICED  $what (exit $status)"
        fi
    fi
done
echo "$all mutants, $noticed noticed"
[ "$all" -gt 0 ] && [ "$all" -eq "$noticed" ]
