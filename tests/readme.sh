#!/usr/bin/env bash
# Runs the README as it is written: the bench on its lines, and the C and the Rust lines of its tour. What each writes
# must be what the README says.
set -euo pipefail
cd "$(dirname "$0")/.."
work=$(mktemp -d)
trap 'rm -rf "$work"' EXIT
cases=0

# block HEADING N: the N-th block of indented lines below a heading
block() {
    awk -v heading="## $1" -v wanted="$2" '
        /^## / { below = $0 == heading; blocks = 0 }
        below && /^    / { if (!inside) blocks++; if (blocks == wanted) print substr($0, 5) }
        { inside = /^    / }' README.md
}

# same NAME HEADING N: $work/out is the N-th block below a heading
same() {
    block "$2" "$3" >"$work/want"
    [ -s "$work/want" ] || { echo "README: no block $3 below '$2'" >&2; exit 1; }
    cmp "$work/out" "$work/want" || { echo "README: $1 writes something else" >&2; exit 1; }
    cases=$((cases + 1))
}

block 'Two commands' 2 | ./bench >"$work/out"
same 'the bench' 'Two commands' 3

{
    printf '#include <inttypes.h>\n#include <stdio.h>\n#include "czubrotek.h"\nint main(void) {\n'
    block Tour 1
    echo '}'
} >"$work/tour.c"
archive=crates/exports/out/libexports.a
[ -f $archive ] || (cd crates/exports && rt lib) >&2
gcc -std=c11 -Wall -Wextra -Werror -Iinclude -o "$work/tour" "$work/tour.c" $archive
"$work/tour" >"$work/out"
same 'the tour in C' Tour 2

mkdir -p "$work/tour-in-rust/src"
cat >"$work/tour-in-rust/Cargo.toml" <<END
[package]
name = "tour"
version = "0.0.0"
edition = "2024"

[dependencies]
czubrotek = { path = "$PWD/rust/czubrotek" }
END
{
    echo 'use czubrotek::{binary_json, fractured_json, text};'
    echo 'fn main() -> Result<(), czubrotek::Refusal> {'
    grep -o 'uint8_t doc\[\] = {[^}]*}' "$work/tour.c" | sed "s/.*{/let scenario: \&[u8] = \&[/; s/'a'/b'a'/; s/}/];/"
    block Tour 3
    echo 'Ok(()) }'
} >"$work/tour-in-rust/src/main.rs"
CARGO_TARGET_DIR=rust/target cargo run --quiet --release --offline --manifest-path "$work/tour-in-rust/Cargo.toml" \
    >"$work/out"
same 'the tour in Rust' Tour 4

echo "README: $cases examples write what it says"
