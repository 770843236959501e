#!/usr/bin/env bash
# wrong.sh [SAID]: each wrong program must be refused for a fact. tests/wrong.py reads what `rt ci` printed of the
# must-fail edits, in the file SAID (with no SAID: what `rt must-fail` prints now), and checks those of which a line
# does not tell it. First its own tests, on copies of `json_model` and `word`: an edit that misspells a name, one that
# renames a local that an invariant names, one that adds a local, and one that means the same show nothing; a wrong fact
# is told as one; and a malformed line is an error.
set -euo pipefail
said=$(realpath -- "${1:-/dev/null}")
cd "$(dirname "$0")/.."
work=$(mktemp -d)
trap 'rm -rf "$work"' EXIT

mkdir "$work/crates"
for crate in json_model word; do
    mkdir -p "$work/crates/$crate/must-fail"
    for part in src specs proofs; do
        if [ -d "crates/$crate/$part" ]; then cp -r "crates/$crate/$part" "$work/crates/$crate"; fi
    done
done
printf 'json_model:\nword: json_model\n' >"$work/crates.txt"

# edit CRATE NAME: an edit of that name, from standard input
edit() { cat >"$work/crates/$1/must-fail/$2.edit"; }
edit json_model misspelt <<'END'
file: specs/Bytes.antt
old: low_field k w = w % 2 ^ k
new: low_field k w = w % 2 ^ bits
END
edit json_model means_the_same <<'END'
file: specs/Texts.antt
old: by_numbers x y equal = choose (ltb x y) Less (choose (ltb y x) Greater equal)
new: by_numbers x y equal = choose (ltb y x) Greater (choose (ltb x y) Less equal)
END
edit json_model field_above <<'END'
file: specs/Bytes.antt
old: low_field k w = w % 2 ^ k
new: low_field k w = w / 2 ^ k
END
edit json_model field_above_named <<'END'
theorem: little_endian
file: specs/Bytes.antt
old: low_field k w = w % 2 ^ k
new: low_field k w = w / 2 ^ k
END
edit word misspelt <<'END'
wrong: misspelt in split
file: src/lib.rt
old: low: (w & mask) as usize,
new: low: (w & masks) as usize,
END
edit word local_added <<'END'
wrong: local_added in split
file: src/lib.rt
old: low: (w & mask) as usize,
new: low: { let m = mask; (w & m) as usize },
wrong: local_added_before_a_loop in any
file: src/lib.rt
old: let mut value = 0;
new: let nothing = 0; let mut value = nothing;
END
edit word local_renamed <<'END'
wrong: local_renamed in any
file: src/lib.rt
old: for (k, x) in s[at..at + n].iter().enumerate() {
new: for (j, x) in s[at..at + n].iter().enumerate() {
old: value = more(value, *x, k);
new: value = more(value, *x, j);
END
edit word mask_by_or <<'END'
wrong: mask_by_or in split
file: src/lib.rt
old: low: (w & mask) as usize,
new: low: (w | mask) as usize,
END
(cd "$work" && rt must-fail json_model word) >"$work/said" 2>&1 || true
python3 tests/wrong.py "$work/said" "$work" >"$work/told" 2>&1 || true
for shows_nothing in 'json_model/misspelt: misspelt: the edited definition does not stand' \
    'json_model/means_the_same: means_the_same: no computed row fails' \
    'word/misspelt: misspelt in split: the edited code does not stand' \
    'word/local_added: local_added in split: no fact fails' \
    'word/local_added: local_added_before_a_loop in any: no fact fails' \
    'word/local_renamed: local_renamed in any: the proof does not fit'; do
    grep -qF "$shows_nothing" "$work/told" ||
        { echo "wrong.py does not tell: $shows_nothing" >&2; cat "$work/told" >&2; exit 1; }
done
grep -qx 'wrong programs: 3 of 9 refused for a fact' "$work/told" ||
    { echo "wrong.py miscounts" >&2; cat "$work/told" >&2; exit 1; }
for malformed in 'wrong: mask_by_or split' 'wrong: in split' 'theorems: little_endian'; do
    { echo "$malformed"; printf 'file: src/lib.rt\nold: a\nnew: b\n'; } | edit word malformed
    if python3 tests/wrong.py "$work/said" "$work" >"$work/told" 2>&1 || ! grep -q 'malformed.edit' "$work/told"; then
        echo "wrong.py takes a malformed line: $malformed" >&2
        exit 1
    fi
done
echo "wrong.py: its own tests pass"

if [ "$said" = /dev/null ]; then
    said=$work/all
    rt must-fail >"$said" 2>&1 || true
fi
python3 tests/wrong.py "$said"
