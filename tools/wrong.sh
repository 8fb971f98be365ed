#!/usr/bin/env bash
# Tries wrong programs: edits that the prover must refuse, each in a copy of the repository.
#   tools/wrong.sh                 lists them: those of the gate (crates/NAME/must-fail) and those that are tried on demand (crates/NAME/wrong)
#   tools/wrong.sh NAME/LABEL ..   tries crates/NAME/must-fail/LABEL.edit or crates/NAME/wrong/LABEL.edit
#   tools/wrong.sh NAME ..         tries all edits of a crate
#   tools/wrong.sh fits            proves nothing: whether what each edit on demand replaces stands once in its file; ends with 'N passed, M failed'
# Of each it says whether it was refused and the prover's first error, so that a reader sees which fact failed.
# What rt keeps of earlier checks on this machine serves; of a crate that changed since, and of those below it, the rest is proved first, in the copy.
# Ends with 0 where every edit that was tried was refused.
set -u
cd "$(dirname "$0")/.." || exit 2

# edits NAME: the edits of a crate, a path a line
edits() {
    find "crates/$1/must-fail" "crates/$1/wrong" -name '*.edit' 2>/dev/null | sort
}

# fits EDIT: whether each text that it replaces stands once in its file
fits() {
    local crate file='' text='' line after
    crate=$(cut -d/ -f2 <<<"$1")
    while IFS= read -r line; do
        case $line in
        'file: '*)
            file=crates/$crate/${line#file: }
            [ -f "$file" ] || return 1
            text=$(cat "$file")
            ;;
        'old: '*)
            after=${text#*"${line#old: }"}
            [ "$after" != "$text" ] && [ "${after#*"${line#old: }"}" = "$after" ] || return 1
            ;;
        esac
    done <"$1"
    [ -n "$file" ]
}

if [ "$*" = fits ]; then
    passed=0
    failed=0
    for edit in crates/*/wrong/*.edit; do
        if fits "$edit"; then
            passed=$((passed + 1))
        else
            echo "FAIL $edit: what it replaces does not stand once in its file"
            failed=$((failed + 1))
        fi
    done
    echo "$passed passed, $failed failed"
    [ "$failed" -eq 0 ]
    exit
fi

if [ $# -eq 0 ]; then
    for edit in crates/*/must-fail/*.edit crates/*/wrong/*.edit; do
        label=$(basename "$edit" .edit)
        kind=$(basename "$(dirname "$edit")")
        crate=$(basename "$(dirname "$(dirname "$edit")")")
        printf '%-28s %-9s %s\n' "$crate/$label" "$kind" "$(sed -n '1s/^# //p' "$edit")"
    done
    exit 0
fi

wanted=()
for name in "$@"; do
    # a path is a name too
    name=${name#crates/}
    name=$(sed 's,/must-fail/\|/wrong/,/,; s,\.edit$,,' <<<"$name")
    case $name in
    */*) found=$(edits "${name%%/*}" | grep "/${name#*/}\.edit$") ;;
    *) found=$(edits "$name") ;;
    esac
    if [ -z "$found" ]; then
        echo "wrong: there is no edit $name; 'tools/wrong.sh' lists them all" >&2
        exit 2
    fi
    mapfile -t -O "${#wanted[@]}" wanted <<<"$found"
done

room=$(mktemp -d) || exit 2
trap 'rm -rf "$room"' EXIT
# the copy has no edits but those that are tried; rt tries whatever stands in must-fail
tar -cf - --exclude=out --exclude=must-fail --exclude=wrong crates.txt crates | tar -xf - -C "$room" || exit 2
mapfile -t crates < <(printf '%s\n' "${wanted[@]}" | cut -d/ -f2 | sort -u)
for edit in "${wanted[@]}"; do
    crate=$(cut -d/ -f2 <<<"$edit")
    mkdir -p "$room/crates/$crate/must-fail"
    cp "$edit" "$room/crates/$crate/must-fail/"
done

survived=0
for crate in "${crates[@]}"; do
    (cd "$room" && rt must-fail "$crate") >"$room/log" 2>&1
    status=$?
    # a line for each edit; of one that was not tried, or is bad, what was said of it stands below
    if ! sed -n '/^rt: must-fail /,$p' "$room/log" | grep .; then
        tail -n 20 "$room/log"
        echo "wrong: no edit of $crate was tried: the crate itself, or one below it, is not proved" >&2
    fi
    [ "$status" -eq 0 ] || survived=$((survived + 1))
done
[ "$survived" -eq 0 ]
