#!/usr/bin/env bash
# Runs the built canon_cli on files that it joins: one that isn't there, a directory, one of more than 2^30 bytes, one
# that is named twice, one whose name is `-`, one without bytes, 1,000 files, and one that may not be read. Of files
# that can't be read, the first decides. And on a full disk, and a pipe whose reader has gone.
# Usage: tests/join.sh. `rt run` proves and builds the program first. It needs 2 GB of memory, and none on disk.
set -euo pipefail
cd "$(dirname "$0")/../crates/canon_cli"
work=$(mktemp -d)
trap 'rm -rf "$work"' EXIT
rt run < stdin > "$work/out" 2> "$work/err" || { cat "$work/err" >&2; exit 1; }
program=$PWD/out/canon_cli
cd "$work"

# check STATUS OUTPUT SAID ARGUMENT..: what the program ends with, writes and says.
check() {
    local want=$1 status=0
    printf '%b' "$2" > want.out
    printf '%b' "$3" > want.err
    shift 3
    "$program" "$@" < /dev/null > got.out 2> got.err || status=$?
    if [ "$status" != "$want" ] || ! cmp -s got.out want.out || ! cmp -s got.err want.err; then
        echo "canon $*: status $status, and:" >&2
        head -c 1000 got.out got.err >&2
        exit 1
    fi
}

printf 'struct S;//x' > first
printf 'fn f(){}' > second
printf '#![a]' > inner
printf 'fn f(' > lexical
printf '\xff' > bytes
printf 'const A:u8=1;' > ./-
: > empty
mkdir folder
truncate -s 1073741825 long

check 0 'struct S ; fn f () { }\n' '' join first second
check 0 'struct S ; struct S ;\n' '' join first first
check 0 'const A : u8 = 1 ; struct S ; const A : u8 = 1 ;\n' '' join - first -
check 0 '# ! [a] struct S ;\n' '' join inner first
check 0 '\n' '' join empty
check 0 'struct S ;\n' '' join empty first empty
check 1 '' 'canon: text 2 must come first\n' join first inner
check 1 '' 'canon: lexical fault at 1:4\n' join lexical inner
check 1 '' 'canon: not UTF-8\n' join lexical bytes
check 3 '' 'canon: reading failed\n' join none
check 3 '' 'canon: reading failed\n' join folder
check 3 '' 'canon: reading failed\n' join lexical first folder
check 3 '' 'canon: reading failed\n' join ''
check 3 '' 'canon: source map full\n' join long
check 3 '' 'canon: source map full\n' join first long none
check 3 '' 'canon: reading failed\n' join none long
check 2 '' 'usage: canon [outline | join FILE..]\n' join
check 2 '' 'usage: canon [outline | join FILE..]\n' joined first
check 2 '' 'usage: canon [outline | join FILE..]\n' outline join first

names=()
want=
for number in $(seq 1000); do
    printf 'fn f%d(){}' "$number" > "many$number"
    names+=("many$number")
    want+="fn f$number () { } "
done
check 0 "${want% }\\n" '' join "${names[@]}"

# fails_to_write WHAT STATUS: that was the end of a run whose writes failed.
fails_to_write() {
    if [ "$2" != 3 ] || [ "$(cat got.err)" != 'canon: writing failed' ]; then
        echo "canon join: $1: status $2, and:" >&2
        cat got.err >&2
        exit 1
    fi
}

status=0
"$program" join first second > /dev/full 2> got.err || status=$?
fails_to_write 'a full disk' "$status"
mkfifo pipe
exec 3<> pipe 4> pipe 3>&-
status=0
"$program" join first second >&4 2> got.err || status=$?
fails_to_write 'a pipe without a reader' "$status"

# Root may read each file, so the program is then run as nobody.
chmod 755 .
chmod 000 second
if [ "$(id -u)" = 0 ]; then
    cp "$program" canon
    printf '#!/bin/sh\nexec setpriv --reuid=65534 --regid=65534 --clear-groups "%s/canon" "$@"\n' "$PWD" > nobody
    chmod 755 canon nobody
    program=$PWD/nobody
fi
check 3 '' 'canon: reading failed\n' join first second
echo "canon join: all is as it is to be"
