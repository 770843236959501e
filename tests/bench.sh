#!/usr/bin/env bash
# Runs the bench on whole inputs: lines and their ends, long lines, deep frames, containers in any order, many lines,
# one endless line; and where reading or writing is interrupted or fails.
set -euo pipefail
cd "$(dirname "$0")/.."
work=$(mktemp -d)
trap 'rm -rf "$work"' EXIT
cases=0

# same NAME: what the bench answered to $work/in is $work/want, byte for byte
same() {
    ./bench <"$work/in" >"$work/out" && cmp "$work/out" "$work/want" || { echo "bench test '$1' failed" >&2; exit 1; }
    cases=$((cases + 1))
}

# row INPUT OUTPUT: an input and all that is written for it, with \n and \r as printf reads them
row() {
    printf "$1" >"$work/in"
    printf "$2" >"$work/want"
    same "$1"
}

row '' 'frames\ntotal 0 ok 0\n'
row '\n' 'frames\n1 B no 1 0\ntotal 1 ok 0\n'
row '\n\n' 'frames\n1 B no 1 0\n2 B no 1 0\ntotal 2 ok 0\n'
row '00\r\n' 'frames\n1 hex\ntotal 1 ok 0\n'
row '\r\n464a0100' 'frames\n1 hex\n2 F ok\ntotal 2 ok 1\n'
row '46\n464A\n464A01\n4a46' 'frames\n1 B no 1 1\n2 F no 31 2\n3 F no 31 3\n4 B no 1 2\ntotal 4 ok 0\n'
row '464A016F046102' 'frames\n1 F ok\ntotal 1 ok 1\n'
row '010100000000000000000000\n464A016F046102\n020100000000000000000000\n0Z\n' 'frames\n1 B ok\n2 F ok\n3 B no 3 0\n4 hex\ntotal 4 ok 2\n'

# zeros N: N characters 0
zeros() { head -c "$1" /dev/zero | tr '\0' 0; }

# `long` comes before `hex`: 32,768 characters, one fewer, one more, one of them bad, and a CR after them
{ zeros 32768; echo; zeros 32767; echo; zeros 32769; echo; zeros 32767; echo Z; zeros 32768; printf '\r\n'; } >"$work/in"
printf 'frames\n1 B no 3 0\n2 hex\n3 long\n4 hex\n5 long\ntotal 5 ok 0\n' >"$work/want"
same 'long before hex'

# arrays in each other, 64 and 65 levels, in 1 MB of stack: a frame may be as deep as any document
word() { printf '%02X%02X%02X%02X' $(($1 & 255)) $(($1 >> 8 & 255)) $(($1 >> 16 & 255)) $(($1 >> 24)); }
binary() {
    word $((1 + 32 * 8 * $1))
    for ((i = 1; i < $1; i++)); do word 32; word $((5 + 32 * (4 + 8 * i))); done
    word 0; word 0; echo
}
fractured() { printf 464A01; printf '9F%.0s' $(seq 2 "$1"); echo 9E; }
{ binary 64; binary 65; fractured 64; fractured 65; } >"$work/in"
printf 'frames\n1 B ok\n2 B no 12 516\n3 F ok\n4 F no 41 67\ntotal 4 ok 2\n' >"$work/want"
(ulimit -s 1024; same 'levels')
cases=$((cases + 1))

# the longest frame that is all tree takes every mark that the bench lends; [[[]],[]] breadth first; [[],[]] with one array named twice
tree() { word $((1 + 32 * 16380)); word $((32 * 4093)); printf '02000000%.0s' $(seq 4093); word 0; echo; }
{
    tree
    echo 010400004000000005020000050300002000000085030000000000000000000000000000
    echo 810200004000000005020000050200000000000000000000
} >"$work/in"
printf 'frames\n1 B ok\n2 B ok\n3 B no 14 16\ntotal 3 ok 2\n' >"$work/want"
same 'container order'

# many lines, which end at every place of a block
lines=200000
yes 464A016F046102 | head -n $lines >"$work/in" || true
{ echo frames; seq -f '%.0f F ok' $lines; echo "total $lines ok $lines"; } >"$work/want"
same 'many lines'

# one line of 20 MB without LF, in little memory
zeros 20000000 >"$work/in"
printf 'frames\n1 long\ntotal 1 ok 0\n' >"$work/want"
(ulimit -v 16384; same 'one endless line')
cases=$((cases + 1))

# tests/c/faults.c interrupts reads and writes, has them move a part of what they were asked for, and has them fail; the
# first two are no failures
faults=$work/faults.so
gcc -std=c11 -Wall -Wextra -Werror -O2 -shared -fPIC -o "$faults" tests/c/faults.c
times() { printf "$1%.0s" $(seq "$2"); }
printf '010100000000000000000000\n464A016F046102\n020100000000000000000000\n0Z' >"$work/in"
printf 'frames\n1 B ok\n2 F ok\n3 B no 3 0\n4 hex\ntotal 4 ok 2\n' >"$work/want"
LD_PRELOAD=$faults READS=i. same 'first read interrupted'
LD_PRELOAD=$faults READS=.ii. same 'last read interrupted'
LD_PRELOAD=$faults READS=$(times i1 100) same 'reads of one byte, each after an interrupted one'
LD_PRELOAD=$faults WRITES=iii. same 'write interrupted'
LD_PRELOAD=$faults WRITES=$(times i1 100) same 'writes of one byte, each after an interrupted one'
yes 464A016F046102 | head -n $lines >"$work/in" || true
{ echo frames; seq -f '%.0f F ok' $lines; echo "total $lines ok $lines"; } >"$work/want"
cp "$work/want" "$work/whole"
LD_PRELOAD=$faults READS=$(times .i 100) WRITES=$(times .i 100) same 'many lines, interrupted'
LD_PRELOAD=$faults READS=$(times 1.i 100) WRITES=$(times 1.i 100) same 'many lines in parts, interrupted'

# failed NAME ERROR [OUT]: the bench named the error, has status 2, and wrote $work/want, unless OUT is no file
failed() {
    local out=${3:-$work/out} status=0
    timeout 10 ./bench >"$out" 2>"$work/err" || status=$?
    [ $status = 2 ] && printf '%s\n' "$2" | cmp "$work/err" - && { [ ! -f "$out" ] || cmp "$out" "$work/want"; } ||
        { echo "bench test '$1' failed, with status $status" >&2; exit 1; }
    cases=$((cases + 1))
}

# a read that fails: lines that were read whole are answered, the one that was cut is not, and there is no total
failing='Input/output error (os error 5)'
again='Resource temporarily unavailable (os error 11)'
{ echo frames; seq -f '%.0f F ok' 8738; } >"$work/want"
LD_PRELOAD=$faults READS=..e failed 'third read' "read: $failing" <"$work/in"
LD_PRELOAD=$faults READS=.i.a failed 'third read, not ready' "read: $again" <"$work/in"
echo frames >"$work/want"
LD_PRELOAD=$faults READS=e failed 'first read' "read: $failing" <"$work/in"
failed 'closed input' 'read: Bad file descriptor (os error 9)' <&-
failed 'folder' 'read: Is a directory (os error 21)' </
printf 464A0100 >"$work/in"
LD_PRELOAD=$faults READS=.e failed 'last line cut' "read: $failing" <"$work/in"
printf 'frames\n1 F ok\n' >"$work/want"
printf '464A0100\n464A0100' >"$work/in"
LD_PRELOAD=$faults READS=.e failed 'second line cut' "read: $failing" <"$work/in"
mkfifo "$work/pipe"
exec 4<>"$work/pipe"
cat "$work/in" >&4
LD_PRELOAD=$faults READS=n failed 'idle pipe' "read: $again" <&4
exec 4<&-

# a write that fails: what was written before stays, and nothing follows
yes 464A016F046102 | head -n $lines >"$work/in" || true
LD_PRELOAD=$faults WRITES=n failed 'full pipe' "write: $again" "$work/pipe" <"$work/in" 4<>"$work/pipe"
failed 'full device' 'write: No space left on device (os error 28)' /dev/full <"$work/in"
awk '{ n += length($0) + 1 } n > 65536 { exit } { print }' "$work/whole" >"$work/want"
LD_PRELOAD=$faults WRITES=.e failed 'second write' "write: $failing" <"$work/in"
LD_PRELOAD=$faults WRITES=i.ia failed 'second write, not ready' "write: $again" <"$work/in"
printf fra >"$work/want"
LD_PRELOAD=$faults WRITES=111e failed 'part of a write' "write: $failing" <"$work/in"
LD_PRELOAD=$faults WRITES=1110 failed 'write of nothing' 'write: failed to write whole buffer' <"$work/in"
: >"$work/want"
LD_PRELOAD=$faults WRITES=e failed 'only write' "write: $failing" </dev/null
both="read: $failing"$'\n''write: No space left on device (os error 28)'
LD_PRELOAD=$faults READS=e failed 'read and write' "$both" /dev/full <"$work/in"

# a closed output fails too, and a reader that goes away ends the run
if ./bench </dev/null >&- 2>"$work/err" || [ ! -s "$work/err" ]; then
    echo "bench test 'closed output' failed" >&2
    exit 1
fi
timeout 10 ./bench <"$work/in" 2>"$work/err" | head -n 1 >"$work/out" && status=0 || status=$?
[ $status = 2 ] && [ -s "$work/err" ] || { echo "bench test 'reader gone' failed" >&2; exit 1; }
cases=$((cases + 2))

echo "bench: $cases inputs answered as they must be"
