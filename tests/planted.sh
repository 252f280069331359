#!/usr/bin/env bash
# Tries wrong bodies that the prover must refuse, and that the gate doesn't try: crates/NAME/planted/*.edit, which are
# written as those of must-fail/ are. The first edit of a crate costs a whole check of it, so the gate tries those of a
# few crates alone (docs/GATE.md); whoever changes a crate runs this for it.
# Usage: tests/planted.sh [NAME..]: the crates named, or all that have such edits. It ends with status 0 if each edit is
# refused. Libraries below a crate are built first, where they aren't.
set -euo pipefail
cd "$(dirname "$0")/.."
names=("$@")
[ $# -gt 0 ] || for folder in crates/*/planted; do names+=("$(basename "$(dirname "$folder")")"); done
put=()
take_back() {
    [ ${#put[@]} = 0 ] || rm -f "${put[@]}"
    for name in "${names[@]}"; do rmdir "crates/$name/must-fail" 2> /dev/null || :; done
}
trap take_back EXIT
for name in "${names[@]}"; do
    mkdir -p "crates/$name/must-fail"
    for edit in "crates/$name/planted"/*.edit; do
        put+=("crates/$name/must-fail/planted_$(basename "$edit")")
        cp "$edit" "${put[-1]}"
    done
done
rt must-fail "${names[@]}"
