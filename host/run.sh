#!/bin/sh
# Tests the calls from C.
#   host/run.sh          on the library target/staticlib/libumbrelnic.a, which host/library.sh makes if it is not there or older than a source, and
#                        beside the model
#   host/run.sh model    on the model alone, with no library; what compares the two then compares the model with itself
# CALLS (1000000) is how long the random comparison is, SEED (1) where it starts.
# Prints a line for each test, and as its last line 'N passed, M failed'. Needs gcc and g++.
set -u

cd "$(dirname "$0")/.." || exit 2
out=target/host
results=$out/results
calls=${CALLS:-1000000}
seed=${SEED:-1}
strict='-std=c11 -Wall -Wextra -pedantic -Werror'
sanitised="$strict -O1 -g -fsanitize=address,undefined -fno-sanitize-recover=all"
tests='refusals replies slots tickets limits commands exchanges base64 mail dialogues images numbers secrecy'
shared='check face model model_lines both generate'
library=target/staticlib/libumbrelnic.a

on_model=''
case ${1:-} in
model)
    on_model=-DON_MODEL
    library=''
    ;;
'') ;;
*)
    echo 'usage: host/run.sh [model]' >&2
    exit 2
    ;;
esac

passed() {
    echo "ok $1" | tee -a "$results"
}

failed() {
    echo "FAIL $1" | tee -a "$results"
}

finish() {
    good=$(grep -c '^ok ' "$results")
    bad=$(grep -c '^FAIL ' "$results")
    echo "$good passed, $bad failed"
    [ "$good" -gt 0 ] && [ "$bad" -eq 0 ]
    exit
}

has_compilers() {
    command -v gcc >/dev/null && command -v g++ >/dev/null
}

need_compilers() {
    if ! has_compilers && command -v apt-get >/dev/null; then
        (apt-get update && apt-get install -y gcc g++) >"$out/install.log" 2>&1
    fi
    if ! has_compilers; then
        failed 'compilers: install gcc and g++'
        finish
    fi
}

# the library, made anew where a source is newer: begun here, while the tests are compiled, and waited for by need_library
making=''
make_library() {
    if [ -z "$library" ] || { [ -f "$library" ] && [ -z "$(find crates -name out -prune -o -name '*.rt' -newer "$library" -print | head -n 1)" ]; }; then
        return
    fi
    sh host/library.sh >"$out/library.log" 2>&1 &
    making=$!
}

need_library() {
    if [ -n "$making" ] && ! wait "$making"; then
        tail -n 20 "$out/library.log"
        failed "library: host/library.sh failed; $out/library.log has it whole"
        finish
    fi
}

# header NAME COMPILER..: umbrelnic.h by itself, included twice
header() {
    name=$1
    shift
    if printf '#include "umbrelnic.h"\n#include "umbrelnic.h"\n' |
        "$@" -Wall -Wextra -pedantic -Werror -Iinclude -fsyntax-only - >"$out/header.log" 2>&1; then
        passed "header $name"
    else
        cat "$out/header.log"
        failed "header $name: it does not compile"
    fi
}

# objects DIRECTORY PARTS FLAGS..: one of each part
objects() {
    directory=$1
    parts=$2
    shift 2
    mkdir -p "$directory"
    for part in $parts; do
        if ! gcc "$@" $on_model -c "host/$part.c" -o "$directory/$part.o"; then
            failed "build $part"
            [ -z "$making" ] || kill "$making"
            finish
        fi
    done
}

# link DIRECTORY NAME FLAGS..: a test with what the tests share, and the library
link() {
    directory=$1
    name=$2
    shift 2
    linked=$directory/$name.o
    for part in $shared; do
        linked="$linked $directory/$part.o"
    done
    if ! gcc "$@" -o "$directory/$name" $linked $library; then
        failed "build $name"
        return 1
    fi
}

# begin PROGRAM ARGUMENTS..: starts it; judge PROGRAM PROCESS: waits for it. Its lines are results; where it dies, that is one
begin() {
    "$@" >"$1.said" 2>"$1.errors" &
}

judge() {
    wait "$2"
    status=$?
    tee -a "$results" <"$1.said"
    cat "$1.errors"
    if [ $status -ne 0 ] && ! grep -q '^FAIL ' "$1.said"; then
        failed "$(basename "$1"): ended with status $status"
    elif ! grep -q '^ok \|^FAIL ' "$1.said"; then
        failed "$(basename "$1"): said nothing"
    fi
}

run() {
    begin "$@"
    judge "$1" $!
}

# docs/C-API.md's host: what it prints is given there
sign_in() {
    if ! gcc $sanitised -Iinclude -o "$out/sign_in" host/sign_in.c "$library"; then
        failed 'build sign_in'
    elif "$out/sign_in" >"$out/said" && cmp "$out/said" host/sign_in.expected; then
        passed 'sign_in'
    else
        failed 'sign_in: it does not print host/sign_in.expected'
    fi
}

mkdir -p "$out"
: >"$results"
need_compilers
make_library

header 'as C11' gcc -x c -std=c11
header 'as C++17' g++ -x c++ -std=c++17
objects "$out/sanitised" "$shared $tests flips compare" $sanitised
# as a host would be built, and faster
objects "$out/plain" "$shared flips compare" $strict -O2
need_library

if [ -n "$library" ]; then
    sign_in
fi
# the longest runs beside the others
longest=''
link "$out/plain" compare $strict -O2 && begin "$out/plain/compare" "$calls" "$seed" && longest=$!
for name in $tests; do
    link "$out/sanitised" "$name" $sanitised && run "$out/sanitised/$name"
done
link "$out/sanitised" flips $sanitised && run "$out/sanitised/flips" 7
link "$out/sanitised" compare $sanitised && run "$out/sanitised/compare" 200000 "$((seed + 1))"
link "$out/plain" flips $strict -O2 && run "$out/plain/flips"
if [ -n "$longest" ]; then
    judge "$out/plain/compare" "$longest"
fi

finish
