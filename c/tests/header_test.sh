#!/bin/sh
# header_test.sh - pivsm.h compiles alone, as C99 and as C++; the archive's global functions are those that it
# declares; each prototype is that of the exported function in crates/pivsm; and the archive needs only memcpy and
# memset from outside, so that a program without a C library brings no more.
#
# usage: header_test.sh ARCHIVE
set -e
cd "$(dirname "$0")/../.."
archive=$1
header=c/include/pivsm.h
work=$(mktemp -d)
trap 'rm -rf "$work"' EXIT

gcc -x c -std=c99 -Wall -Wextra -Wpedantic -Werror -fsyntax-only - <<END
#include "$header"
END
g++ -x c++ -Wall -Wextra -Wpedantic -Werror -fsyntax-only - <<END
#include "$header"
END

# One line for each function: result, name and parameter types. The compiler's own view, with the names of parameters
# taken out; bool is a macro for _Bool.
gcc -E -P "$header" | tr '\n' ' ' | tr ';' '\n' | grep -o '[a-z0-9_]* pivsm_[a-z0-9_]*(.*' |
    sed -E 's/_Bool/bool/g; s/[a-z0-9_]+ *([,)])/\1/g; s/ +([,)])/\1/g; s/, */, /g' | sort >"$work/header"

# The same from the Rattle code: a slice is a pointer and a length.
cat crates/pivsm/src/*.rt | tr '\n' ' ' | sed 's/pub extern "C" fn/\n&/g' |
    sed -nE 's/^pub extern "C" fn ([a-z0-9_]+)\(([^)]*)\) *-> *([a-z0-9]+).*/\3 \1(\2)/p' |
    sed -E 's/,? *\)/)/; s/\( */(/; s/[a-z0-9_]+: //g; s/, +/, /g
        s/&mut \[u8\]/u8 *, usize/g; s/&\[u8\]/const u8 *, usize/g; s/&mut ([a-z0-9]+)/\1 */g
        s/\bu(8|16|32|64)\b/uint\1_t/g; s/\busize\b/size_t/g' | sort >"$work/code"

nm --defined-only --extern-only "$archive" | awk '$2 == "T" { print $3 }' | sort >"$work/symbols"
sed -E 's/^[^ ]+ ([^(]*)\(.*/\1/' "$work/header" | sort >"$work/names"

test -s "$work/names"
diff "$work/header" "$work/code"
diff "$work/names" "$work/symbols"

nm --undefined-only "$archive" | awk '$1 == "U" { print $2 }' | sort -u >"$work/needed"
if grep -v -x -e memcpy -e memset "$work/needed"; then
    echo "$archive needs the names above from outside" >&2
    exit 1
fi
echo "pivsm.h: C99 and C++; $(wc -l <"$work/names") calls, as in the archive and in the crates"
