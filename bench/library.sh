#!/usr/bin/env bash
# Lexes each file of Rust's standard library (Debian's package rust-src) and prints how many lex.
# Usage: bench/library.sh
set -euo pipefail
cd "$(dirname "$0")/.."
if ! dpkg -s rust-src > /dev/null 2>&1; then
    apt-get update -qq
    apt-get install -y -qq rust-src > /dev/null
fi
(cd crates/bench_lexer && rt run < /dev/null > /dev/null 2>&1)
program=$PWD/crates/bench_lexer/out/bench_lexer
library=$(dpkg -L rust-src | awk '/\/library$/ && !found { print; found = 1 }')
good=0
bad=0
while read -r file; do
    if "$program" < "$file" > /dev/null 2>&1; then
        good=$((good + 1))
    else
        bad=$((bad + 1))
        echo "refused: ${file#"$library"/}"
    fi
done < <(find "$library" -name '*.rs' | LC_ALL=C sort)
echo "$good files lex, $bad are refused"
[ "$bad" = 0 ]
