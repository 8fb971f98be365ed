#!/bin/sh
# Measures the proved base64, xtext and readings of lines beside plain C, and beside the base64 of the libraries that are installed;
# and the calls beside the model in host/, which is plain C too.
#   bench/run.sh          prints the tables: instructions, then times, as ratios to plain C
#   bench/run.sh check    only compares the answers and buffers with those of plain C
#   bench/run.sh limit    compares, and counts instructions: fails where the proved one takes more than
#                         LIMIT (1.15), of lines LIMIT_LINES (2.7), of plain C's at 64 letters or octets or more,
#                         and of calls LIMIT_CALLS (1.25) at every number of connections; of calls also where a sign-in
#                         with 2 mechanisms takes more than LIMIT_SIGN_IN (20000 24000 55000) instructions with 1, 8 and
#                         64 connections, or one on the worst patterns of numbers and tickets more than LIMIT_PATTERNS
#                         (1.3) of the usual one with as many waiting, the copy of the image left out in both
# FORMS (all) says which of base64, xtext, lines and calls are measured. ROUNDS (60) is the number of rounds that a time is the median
# of. Needs rt and gcc; what else is missing is said and left out.
set -eu

here=$(cd "$(dirname "$0")" && pwd)
root=$(dirname "$here")
out=$root/target/bench
forms=${FORMS:-base64 xtext lines calls}
mode=${1:-tables}
case $mode in
tables | check | limit) ;;
*)
    echo 'usage: bench/run.sh [check | limit]' >&2
    exit 2
    ;;
esac

# has NAME HEADER CFLAGS LIBS: compiles it in if a program with this header links
flags=''
libs=''
has() {
    if printf '#include <%s>\nint main(void) { return 0; }\n' "$2" | gcc $3 -x c - -o "$out/probe" $4 >"$out/probe.log" 2>&1; then
        flags="$flags -DHAVE_$1 $3"
        libs="$libs $4"
    else
        echo "run.sh: left out, not installed: $1"
    fi
}

# the crate that has the C face of a form
face_of() {
    case $1 in
    lines) echo lineface ;;
    calls) echo umbrelnic_c ;;
    *) echo benchface ;;
    esac
}

prove() {
    if ! (cd "$root/crates/$1" && rt lib) >"$out/$1.log" 2>&1; then
        tail -n 20 "$out/$1.log" >&2
        echo "run.sh: rt lib in crates/$1 failed; $out/$1.log has it whole" >&2
        exit 2
    fi
}

# what a form is compiled from, beside itself
sources_of() {
    case $1 in
    lines) echo "$here/plain_lines.c $here/plain_base64.c" ;;
    calls) echo "$root/host/face.c $root/host/model.c $root/host/model_lines.c" ;;
    *) echo "$here/plain_$1.c $here/forms.c" ;;
    esac
}

build() {
    mkdir -p "$out"
    for face in $(for form in $forms; do face_of "$form"; done | sort -u); do
        prove "$face"
    done
    has VALGRIND valgrind/callgrind.h '' ''
    has OPENSSL openssl/evp.h '' -lcrypto
    has GSASL gsasl.h '' -lgsasl
    has GLIB glib.h "$(pkg-config --cflags glib-2.0 2>/dev/null || :)" "$(pkg-config --libs glib-2.0 2>/dev/null || :)"
    for form in $forms; do
        face=$(face_of "$form")
        gcc -std=c11 -O2 -Wall -Wextra $flags -o "$out/$form" "$here/$form.c" $(sources_of "$form") "$here/harness.c" \
            "$root/crates/$face/out/lib$face.a" $libs
    done
}

# what a length counts, how much more than plain C the proved one may take, and from which length on
unit_of() {
    case $1 in
    lines) echo octets ;;
    calls) echo connections ;;
    *) echo letters ;;
    esac
}

limit_of() {
    case $1 in
    lines) echo "${LIMIT_LINES:-2.7}" ;;
    calls) echo "${LIMIT_CALLS:-1.25}" ;;
    *) echo "${LIMIT:-1.15}" ;;
    esac
}

judged_from() {
    case $1 in
    calls) echo 1 ;;
    *) echo 64 ;;
    esac
}

can_count() {
    case $flags in
    *HAVE_VALGRIND*) command -v valgrind >/dev/null ;;
    *) false ;;
    esac
}

# lines as of FORM time: function, kind, length, row, ratio to plain C, instructions
count() {
    rm -rf "$out/dumps"
    mkdir "$out/dumps"
    if ! valgrind --tool=callgrind --callgrind-out-file="$out/dumps/out" "$out/$1" insn >"$out/dumps/log" 2>&1; then
        cat "$out/dumps/log" >&2
        exit 1
    fi
    # dumps are numbered from 1 on; the last one, of the program's end, has no label. A dump's summary is what was counted since
    # the counters were cleared; its totals have some of what came before, as the making of an input
    for dump in $(ls "$out/dumps" | grep '^out\.' | sort -t. -k2 -n); do
        awk '
            /^desc: Trigger:/ { split($0, label, "@") }
            /^summary:/ { total = $2 }
            END { if (label[2] != "") printf "%s\t%s\t%s\t%s\t%d\n", label[2], label[3], label[4], label[5], total / label[6] }
        ' "$out/dumps/$dump"
    done | awk -F'\t' '
        { line[NR] = $0; count[NR] = $5; base[NR] = $1 FS $2 FS $3 }
        $4 == "plain C" { plain[base[NR]] = $5 }
        END {
            for (i = 1; i <= NR; i++) {
                split(line[i], f, FS)
                printf "%s\t%s\t%s\t%s\t%.3f\t%d\n", f[1], f[2], f[3], f[4], count[i] / plain[base[i]], count[i]
            }
        }'
}

# a table for each function: a row for each kind and contender, a column for each length
print_tables() {
    awk -F'\t' -v form="$1" -v unit="$2" -v length_unit="$(unit_of "$1")" '
        function cells(name, key, field,    j, s) {
            s = ""
            for (j = 1; j <= lengths[name]; j++) s = s sprintf(" %9s |", field[key, length_at[name, j]])
            return s
        }
        !($1 in known_function) { known_function[$1]; function_at[++functions] = $1 }
        !(($1, $3) in known_length) { known_length[$1, $3]; length_at[$1, ++lengths[$1]] = $3 }
        {
            key = $1 FS $2 FS $4
            if (!(key in known_key)) { known_key[key]; key_at[++keys] = key }
            ratio[key, $3] = sprintf("%.2f", $5)
            amount[key, $3] = sprintf(unit == "ns" ? "%.1f" : "%d", $6)
        }
        END {
            for (k = 1; k <= functions; k++) {
                name = function_at[k]
                printf "\n| %-15s | %-21s |", form " " name, length_unit ":"
                for (j = 1; j <= lengths[name]; j++) printf " %9s |", length_at[name, j]
                printf "\n|%s|%s|", "---", "---"
                for (j = 1; j <= lengths[name]; j++) printf "---:|"
                printf "\n"
                for (i = 1; i <= keys; i++) {
                    split(key_at[i], f, FS)
                    if (f[1] != name) continue
                    if (f[3] == "plain C") printf "| %-15s | %-21s |%s\n", f[2], "plain C, " unit, cells(name, key_at[i], amount)
                    else printf "| %-15s | %-21s |%s\n", f[2], f[3], cells(name, key_at[i], ratio)
                }
            }
        }'
}

# fails where the proved one takes too many instructions
judge() {
    awk -F'\t' -v form="$1" -v limit="$(limit_of "$1")" -v length_unit="$(unit_of "$1")" -v from="$(judged_from "$1")" '
        $4 == "proved" && $3 >= from + 0 {
            judged++
            if ($5 > most) most = $5
            if ($5 > limit) {
                bad++
                printf "TOO SLOW %s %s, %s, %s %s: %.3f of plain C\n", form, $1, $2, $3, length_unit, $5
            }
        }
        END {
            printf "%s limit: %d of %d above %s of plain C; the most is %.3f\n", form, bad, judged, limit, most
            exit bad > 0 || judged == 0
        }'
}

# fails where a sign-in of the proved one takes too many instructions, the copy of the image left out
judge_sign_in() {
    awk -F'\t' -v limits="${LIMIT_SIGN_IN:-20000 24000 55000}" '
        BEGIN { split(limits, limit, " "); split("1 8 64", at, " ") }
        $4 == "proved" && $2 == "none: the copy" { copy[$3] = $6 }
        $4 == "proved" && $1 == "sign-in" && $2 == "2 mechanisms" { taken[$3] = $6 }
        END {
            for (i = 1; i <= 3; i++) {
                connections = at[i]
                if (!(connections in copy) || !(connections in taken) || limit[i] == "") { missing++; continue }
                judged++
                own = taken[connections] - copy[connections]
                if (own / limit[i] > most) most = own / limit[i]
                if (own > limit[i] + 0) {
                    bad++
                    printf "TOO SLOW calls sign-in, 2 mechanisms, %s connections: %d instructions\n", connections, own
                }
            }
            printf "calls sign-in limit: %d of %d above %s instructions; the most is %.3f of its limit\n", bad, judged, limits, most
            exit bad > 0 || missing > 0
        }'
}

# fails where the proved one takes too many instructions on a pattern, beside the usual numbers with as many waiting
judge_patterns() {
    awk -F'\t' -v limit="${LIMIT_PATTERNS:-1.3}" '
        $4 != "proved" || $3 != 64 { next }
        $2 == "none: the copy" { copy = $6 }
        $1 == "sign-in" && $2 == "2 mechanisms" { usual["patterns"] = $6 }
        $1 == "all waiting" && $2 == "usual" { usual[$1] = $6; next }
        $1 == "patterns" || $1 == "all waiting" { rows++; name[rows] = $1; kind[rows] = $2; taken[rows] = $6 }
        END {
            for (i = 1; i <= rows; i++) {
                if (copy == 0 || usual[name[i]] <= copy) continue
                judged++
                ratio = (taken[i] - copy) / (usual[name[i]] - copy)
                if (ratio > most) most = ratio
                if (ratio > limit + 0) {
                    bad++
                    printf "TOO SLOW calls %s, %s: %.3f of the usual\n", name[i], kind[i], ratio
                }
            }
            printf "calls patterns limit: %d of %d above %s of the usual; the most is %.3f\n", bad, judged, limit, most
            exit bad > 0 || judged < rows || judged == 0
        }'
}

build

status=0
for form in $forms; do
    "$out/$form" check || status=1
done
if [ "$mode" = check ] || [ $status -ne 0 ]; then
    exit $status
fi

if can_count; then
    if [ "$mode" = tables ]; then
        printf '\nInstructions of a call, as a ratio to plain C\n'
    fi
    for form in $forms; do
        count "$form" >"$out/$form.insn"
        if [ "$mode" = limit ]; then
            judge "$form" <"$out/$form.insn" || status=1
            if [ "$form" = calls ]; then
                judge_sign_in <"$out/$form.insn" || status=1
                judge_patterns <"$out/$form.insn" || status=1
            fi
        else
            print_tables "$form" instructions <"$out/$form.insn"
        fi
    done
else
    echo 'run.sh: valgrind or its headers are missing, so instructions are not counted'
    if [ "$mode" = limit ]; then
        exit 2
    fi
fi

if [ "$mode" = tables ]; then
    printf '\nTime of a call, as a ratio to plain C\n'
    for form in $forms; do
        "$out/$form" time >"$out/$form.time"
        print_tables "$form" ns <"$out/$form.time"
    done
fi
exit $status
