#!/usr/bin/env bash
# Runs deskrun over scripts and compares what it prints: every pair of crates/deskrun/scripts, and scripts with long lines, which are made here.
# usage: host/deskrun.sh [PROGRAM]      (rt ci, and rt run in crates/deskrun, make crates/deskrun/out/deskrun)
set -u
cd "$(dirname "$0")/.." || exit 1
program=${1:-crates/deskrun/out/deskrun}
scripts=crates/deskrun/scripts
if [ ! -x "$program" ]; then
    echo "FAIL deskrun: there is no $program; rt run in crates/deskrun makes crates/deskrun/out/deskrun"
    echo '0 passed, 1 failed'
    exit 1
fi
room=$(mktemp -d) || exit 1
trap 'rm -rf "$room"' EXIT
passed=0
failed=0

# judge NAME: what was printed must be $room/out, no more and no less.
judge() {
    if cmp -s "$room/printed" "$room/out"; then
        echo "ok deskrun $1"
        passed=$((passed + 1))
    else
        echo "FAIL deskrun $1"
        failed=$((failed + 1))
    fi
}

# compare NAME: the same of the program over $room/in.
compare() {
    "$program" <"$room/in" >"$room/printed" 2>&1 || echo "status $?" >>"$room/printed"
    judge "$1"
}

# A script is begun, gets its lines with what each must print, and is run.
begin() {
    : >"$room/in"
    : >"$room/out"
}

# says TEXT PRINTED: a script line.
says() {
    printf '%s\n' "$1" >>"$room/in"
    printf '%s\n' "$2" >>"$room/out"
}

# long START COUNT OCTET END PRINTED: a script line with an octet COUNT times over.
long() {
    {
        printf '%s' "$1"
        head -c "$2" /dev/zero | tr '\0' "$3"
        printf '%s\n' "$4"
    } >>"$room/in"
    printf '%s\n' "$5" >>"$room/out"
}

for script in "$scripts"/*.script; do
    cp "$script" "$room/in"
    cp "${script%.script}.transcript" "$room/out"
    compare "$(basename "$script" .script)"
done

not_understood='reply 500 5.5.2 Line not understood'
too_long='reply 500 5.5.6 Authentication line too long'
syntax='reply 501 5.5.2 Syntax error'

# Ends of a script.
begin
compare no-input

begin
printf '\n' >"$room/in"
echo unreadable >"$room/out"
compare one-empty-line

begin
printf 'open smtp plain\nline 1 NOOP' >"$room/in"
printf 'opened 1\npass\n' >"$room/out"
compare no-last-LF

begin
printf 'open smtp plain\n\n\nwho 1\n ' >"$room/in"
printf 'opened 1\nunreadable\nunreadable\nnobody\nunreadable\n' >"$room/out"
compare last-line-unreadable

# CR and NUL are octets like any other.
begin
printf 'open smtp plain\r\nopen smtp plain\nline 1 NOOP\r\nline 1\r\nwho 1\r\nhexline 1 4e\r\nline 1 NO\0OP\nclose\0 1\nclose 1\0\nclose 1\n' >"$room/in"
printf 'unreadable\nopened 1\n%s\nunreadable\nunreadable\nunreadable\n%s\nunreadable\nunreadable\ndone\n' "$not_understood" "$not_understood" >"$room/out"
compare CR-and-NUL

# Lines of any length, where no exchange runs and where a response is awaited, while a ticket waits, and where nobody is.
for n in 13000 32750 32760 32768 32769 65536 100000 1000000; do
    begin
    long 'line 1 ' "$n" A '' 'refused 2'
    says 'open smtp protected' 'opened 1'
    says 'line 1 EHLO a' 'pass'
    long 'line 1 ' "$n" A '' "$not_understood"
    long 'line 1 MAIL FROM:<' "$n" A '>' "$not_understood"
    long 'line 1 RSET' "$n" ' ' '' "$not_understood"
    says 'line 1 AUTH PLAIN' 'reply 334 '
    long 'line 1 ' "$n" A '' "$too_long"
    says 'line 1 AUTH PLAIN' 'reply 334 '
    long 'line 1 ' "$n" '*' '' "$too_long"
    says 'line 1 AUTH PLAIN Zm9v' 'ask 1 3'
    long 'line 1 ' "$n" A '' 'refused 3'
    long 'success 1 ' "$n" a '' 'refused 5'
    long 'challenge 1 ' "$n" a '' 'refused 5'
    long 'challenge 2 ' "$n" a '' 'refused 4'
    says 'success 1 anna' 'reply 235 2.7.0 Authentication succeeded'
    says 'open pop3 protected' 'opened 2'
    long 'line 2 ' "$n" A '' 'reply -ERR Line not understood'
    says 'line 2 AUTH PLAIN' 'reply + '
    long 'line 2 ' "$n" A '' 'reply -ERR Authentication line too long'
    compare "line-$n"
done

# The same in hexadecimal: an odd number of digits, or an octet that is no digit, makes the line unreadable wherever it stands.
for n in 26000 32756 32758 32760 65536 200000; do
    begin
    says 'open smtp protected' 'opened 1'
    says 'line 1 EHLO a' 'pass'
    long 'hexline 1 ' "$n" 4 '' "$not_understood"
    long 'hexline 1 4' "$n" 4 '' unreadable
    long 'hexline 1 ' "$n" 4 'e' unreadable
    long 'hexline 1 ' "$n" 4 '4f' "$not_understood"
    long 'hexline 1 ' "$n" 4 '4g' unreadable
    long 'hexline 1 ' "$n" 4 '4F' unreadable
    long 'hexline 1 g4' "$n" 4 '' unreadable
    long 'hexline 1 ' "$n" 4 ' ' unreadable
    long 'hexline 2 ' "$n" 4 '' 'refused 2'
    long 'hexline 2 ' "$n" 4 '4' unreadable
    says 'line 1 AUTH PLAIN' 'reply 334 '
    long 'hexline 1 ' "$n" 4 '4' unreadable
    long 'hexline 1 ' "$n" 4 '41' "$too_long"
    says 'hexline 1 4e4f4f50' 'pass'
    compare "hexline-$n"
done

# Long lines that are no calls.
for n in 64 40000 100000; do
    begin
    says 'open smtp plain' 'opened 1'
    long 'close 1' "$n" ' ' '' unreadable
    long 'close 1' "$n" 0 '' unreadable
    long 'who ' "$n" 0 1 unreadable
    long 'line ' "$n" 0 '1 NOOP' unreadable
    long 'line ' "$n" 1 ' NOOP' unreadable
    long 'line' "$n" ' ' '1 NOOP' unreadable
    long '' "$n" ' ' 'close 1' unreadable
    long '' "$n" x ' 1' unreadable
    long 'open smtp plain' "$n" ' ' '' unreadable
    long 'open smtp ' "$n" ' ' 'plain' unreadable
    long 'rejected 1' "$n" x '' unreadable
    says 'close 1' 'done'
    compare "unreadable-$n"
done

# Both sides of each limit of document 01.
begin
says 'open smtp protected' 'opened 1'
says 'line 1 EHLO a' 'pass'
long 'line 1 AUTH PLAIN ' 496 A '' 'ask 1 372'
says 'rejected 1' 'reply 535 5.7.8 Credentials not accepted'
long 'line 1 AUTH PLAIN ' 500 A '' "$not_understood"
long 'line 1 NOOP ' 505 A '' 'pass'
long 'line 1 NOOP ' 506 A '' "$not_understood"
long 'line 1 MAIL FROM:<' 998 A '>' 'pass <>'
says 'ended 1' 'done'
long 'line 1 MAIL FROM:<' 999 A '>' "$not_understood"
says 'line 1 AUTH PLAIN' 'reply 334 '
long 'line 1 ' 12284 A '' 'ask 2 9213'
says 'rejected 2' 'reply 535 5.7.8 Credentials not accepted'
says 'line 1 AUTH PLAIN' 'reply 334 '
long 'line 1 ' 12286 A '' "$syntax"
says 'line 1 AUTH PLAIN' 'reply 334 '
long 'line 1 ' 12287 A '' "$too_long"
says 'line 1 AUTH PLAIN' 'reply 334 '
long 'hexline 1 ' 24568 4 '' 'ask 3 9213'
long 'challenge 3 ' 9211 a '' 'refused 5'
{
    printf 'challenge 3 '
    head -c 9210 /dev/zero | tr '\0' a
    echo
} >>"$room/in"
{
    printf 'reply 334 '
    head -c 3070 /dev/zero | tr '\0' x | sed 's/x/YWFh/g'
    echo
} >>"$room/out"
long 'hexline 1 ' 24574 4 '' "$too_long"
says 'open pop3 protected' 'opened 2'
long 'line 2 AUTH PLAIN ' 240 A '' 'ask 4 180'
says 'rejected 4' 'reply -ERR [AUTH] Credentials not accepted'
long 'line 2 AUTH PLAIN ' 244 A '' 'reply -ERR Line not understood'
compare limits

# An address whose xtext is three times as long.
begin
says 'open smtp protected' 'opened 1'
says 'line 1 EHLO a' 'pass'
says 'line 1 AUTH PLAIN Zm9v' 'ask 1 3'
says 'success 1 anna' 'reply 235 2.7.0 Authentication succeeded'
{
    printf 'line 1 MAIL FROM:<> AUTH='
    head -c 328 /dev/zero | tr '\0' x | sed 's/x/+0A/g'
    echo '@b'
} >>"$room/in"
{
    printf 'pass address 330 '
    head -c 328 /dev/zero | tr '\0' x | sed 's/x/+0A/g'
    echo '@b'
} >>"$room/out"
compare long-address

# Lines that come in pieces.
mkfifo "$room/pipe"
(
    for piece in 'open sm' 'tp plain' '\n' 'line 1 NO' 'OP\nwho' ' 1\n\nclose' ' 1'; do
        printf "$piece"
        sleep 0.05
    done >"$room/pipe"
) &
"$program" <"$room/pipe" >"$room/printed" 2>&1
printf 'opened 1\npass\nnobody\nunreadable\ndone\n' >"$room/out"
wait
judge pieces

# Many lines, more than are read or written at a time.
begin
{
    echo 'open smtp plain'
    yes 'who 1' | head -n 50000
    yes 'line 1 AUTH PLAIN Zm9v' | head -n 50000
} >"$room/in"
{
    echo 'opened 1'
    yes nobody | head -n 50000
    yes 'reply 503 5.5.1 Not permitted now' | head -n 50000
} >"$room/out"
compare many-lines

echo "$passed passed, $failed failed"
[ "$failed" -eq 0 ]
