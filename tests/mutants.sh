#!/usr/bin/env bash
# Wrong versions of both verdicts, by machine: each number, each place and each order of two lines changed, and a
# computed row must refuse each. Some five minutes on four processors of what `tests/mutate CRATE` does for a crate.
set -euo pipefail
cd "$(dirname "$0")/.."
work=$(mktemp -d)
trap 'rm -rf "$work"' EXIT
failed=0
for crate in binary_json_rules fractured_json_rules; do
    python3 tests/mutate "$crate" --file specs/Verdict.antt --kind number,place,order --rows --work "$work/$crate" \
        >"$work/said" 2>&1 || failed=1
    grep -E '^(SURVIVED|unclear|theorem|mutate:)' "$work/said" >&2 || true
    tail -n 1 "$work/said"
    rm -rf "${work:?}/$crate"
done
[ "$failed" = 0 ]
