#!/usr/bin/env bash
# Tests of crates/claims. First: it makes every public call of the readers, of `text` and of `frame`, and asks nothing
# of its callers. Then: a call whose contract says less breaks a claim. Each tests/weaken/NAME.code is a call of a
# reader with a weaker contract, which takes the place of the reader's own in a copy of the repository; the file's first
# lines name the call, and each function of claims that it must break, with the goal that must stay open there. The
# readers must be proved in the copy, and claims but for those functions.
set -euo pipefail
cd "$(dirname "$0")/.."

fail() {
    echo "claims: $*" >&2
    exit 1
}

# calls CRATE: its public calls, as a caller names them
calls() {
    local src=crates/$1/src module
    grep -v '^ *//' "$src/lib.rt" | tr -d '\n' | grep -o 'pub use [^;]*;' | sed 's/.*:://' | grep -o '[A-Za-z_0-9]*' |
        sed -n "s/^[a-z]/$1::&/p"
    sed -n "s/^pub fn \([a-z_0-9]*\).*/$1::\1/p" "$src/lib.rt"
    for module in $(sed -n 's/^pub mod \([a-z_0-9]*\);$/\1/p' "$src/lib.rt"); do
        sed -n "s/^pub fn \([a-z_0-9]*\).*/$1::$module::\1/p" "$src/$module.rt"
    done
}

made=0
for crate in binary_json fractured_json text frame; do
    for call in $(calls $crate); do
        grep -q "[^a-z_]$call(" crates/claims/src/lib.rt || fail "$call is in no claim"
        made=$((made + 1))
    done
done
! grep -q '^ *requires' crates/claims/src/lib.rt || fail "a function asks something of its caller"
echo "claims: all $made public calls are made"

copy=$(mktemp -d)
trap 'rm -rf "$copy"' EXIT
cp crates.txt "$copy"
for part in crates/*/{src,specs,proofs}; do
    if [ -d "$part" ]; then mkdir -p "$copy/${part%/*}" && cp -r "$part" "$copy/${part%/*}"; fi
done

# exchange LIB MODULE CALL: the call leaves the file's own `pub use`, and comes from a module beside it
exchange() {
    python3 - "$@" <<'END'
import re, sys
lib, module, call = sys.argv[1:]
text = open(lib, encoding="utf-8").read()
text, of_group = re.subn(rf"(pub use [^;]*[{{ ]){call}(, *\n? *|(?=\n?}}))", r"\1", text)
text, alone = re.subn(rf"pub use [^;{{]*::{call};\n", "", text)
text = re.sub(r"(?m)^(?=pub use )", f"mod {module};\npub use {module}::{call};\n", text, count=1)
open(lib, "w", encoding="utf-8").write(text)
sys.exit(of_group + alone != 1)
END
}

weak=0
for file in tests/weaken/*.code; do
    name=$(basename "$file" .code) call=$(sed -n 's|^// weakens: ||p' "$file")
    reader=${call%::*} own=${call#*::}
    grep -q '^// breaks: ' "$file" || fail "$file: breaks nothing"
    cp "$file" "$copy/crates/$reader/src/$name.rt"
    exchange "$copy/crates/$reader/src/lib.rt" "$name" "$own" || fail "$file: $reader has no one line that names $own"
    weak=$((weak + 1))
done

for reader in binary_json fractured_json; do
    (cd "$copy/crates/$reader" && rt check >"$copy/log" 2>&1) ||
        fail "$reader is not proved with the weaker contracts: $(tail -n 20 "$copy/log")"
done
(cd "$copy/crates/claims" && rt check >"$copy/log" 2>&1) || true
broken=$(sed -n 's|^// breaks: \(.*\) at .*|\1|p' tests/weaken/*.code | sort -u)
failed=$(sed -nE 's/^fn claims::([a-z_]*): (no proof|not proved).*/\1/p' "$copy/log" | sort -u)
[ "$broken" = "$failed" ] || fail "not proved are: ${failed//$'\n'/ }; expected: ${broken//$'\n'/ }"
while read -r function goal; do
    open="/$function/Answers.antt:.*: error: \`$goal|^fn claims::$function: no proof: .* did not prove .*\`$goal"
    grep -Eq "$open" "$copy/log" || fail "$function does not fail at $goal"
done < <(sed -n 's|^// breaks: \(.*\) at \(.*\)$|\1 \2|p' tests/weaken/*.code)
echo "claims: $weak weaker contracts break a claim"
