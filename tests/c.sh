#!/usr/bin/env bash
# Compiles the C programs over the header, links them with the proved library (made first if it is missing), and runs
# them.
set -euo pipefail
cd "$(dirname "$0")/.."
work=$(mktemp -d)
trap 'rm -rf "$work"' EXIT
archive=crates/exports/out/libexports.a
[ -f $archive ] || (cd crates/exports && rt lib) >&2
for program in specimens stack; do
    gcc -std=c11 -Wall -Wextra -Werror -O2 -pthread -Iinclude -o "$work/$program" "tests/c/$program.c" $archive
    "$work/$program"
done
