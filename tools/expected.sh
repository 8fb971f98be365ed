#!/usr/bin/env bash
# Whether the file stdout of each program of tests, which is what it must print, is what its expected.py makes from the papers. It runs no proved code.
# Ends with 'N passed, M failed', and with 0 where none failed.
set -uo pipefail
cd "$(dirname "$0")/.." || exit 2

passed=0
failed=0
for model in crates/*/expected.py; do
    crate=$(dirname "$model")
    if python3 -B "$model" | diff -q - "$crate/stdout"; then
        echo "ok $model"
        passed=$((passed + 1))
    else
        echo "not ok: $model makes another text than $crate/stdout; see: python3 -B $model | diff - $crate/stdout"
        failed=$((failed + 1))
    fi
done
echo "$passed passed, $failed failed"
[ "$failed" -eq 0 ]
