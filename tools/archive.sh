#!/bin/sh
# archive.sh - the archive of a static library, once its crate and what that uses are proved.
#
# usage: archive.sh ARCHIVE CRATE
set -e
archive=$1
crate=$2
(cd "crates/$crate" && rt lib) >"$archive.log" 2>&1 || { cat "$archive.log"; exit 1; }
cp "crates/$crate/out/lib$crate.a" "$archive"
