#!/usr/bin/env bash
# Sees that what is written by scripts is as they write it: runs tools/generate, and ends with status 0 if nothing
# changed. What changed stays there to be looked at. Usage: tests/generated.sh, in a tree that has no other changes.
set -euo pipefail
cd "$(dirname "$0")/.."
git diff --quiet HEAD || { echo 'the tree has changes: commit them, or put them aside' >&2; exit 2; }
tools/generate
git diff --exit-code --stat
