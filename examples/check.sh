#!/usr/bin/env bash
# Checks a proof of a program, and prints `accepted`, or why not. Ends with the program's own status: 0 accepted, 1 not accepted,
# 3 a file isn't of its form or passes a limit (docs/FORMATS.md has all). So it can stand in a gate of your own.
# Usage: examples/check.sh PROGRAM PROOF, after proofspace was proved and built (rt run -- check in crates/proofspace).
set -u
[ $# -eq 2 ] || { echo "usage: examples/check.sh PROGRAM PROOF" >&2; exit 4; }
proofspace=${PROOFSPACE:-$(dirname "${BASH_SOURCE[0]}")/../crates/proofspace/out/proofspace}
[ -x "$proofspace" ] || { echo "examples/check.sh: no program at $proofspace; run 'rt run -- check' in crates/proofspace first" >&2; exit 4; }
for file in "$1" "$2"; do
    [ -r "$file" ] || { echo "examples/check.sh: no file $file" >&2; exit 5; }
done
# The two are joined by a line `%%`, before which the program's last line has to end.
{
    cat -- "$1"
    [ -z "$(tail -c 1 -- "$1")" ] || echo
    echo '%%'
    cat -- "$2"
} | "$proofspace" check
