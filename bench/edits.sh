#!/usr/bin/env bash
# Tries the edits of bench/edits, which the gate does not try: edits.sh CRATE.. (none: every crate that has some there).
#
# Each edit turns the meaning of a call, and the proof of its crate must refuse it. Run it when a crate's contracts change.
# It works in a copy of the repository, in which nothing is proved yet, so that the crates themselves stay as they are:
# a crate takes its own proof, those of all crates below it, and then a check for each edit. docs/PROOF_NOTES.md has the costs.
set -euo pipefail
here=$(cd "$(dirname "$0")/.." && pwd)

fail() {
    echo "edits.sh: $*" >&2
    exit 1
}

names=("$@")
if [ ${#names[@]} -eq 0 ]; then
    for folder in "$here"/bench/edits/*/; do
        names+=("$(basename "$folder")")
    done
fi
for name in "${names[@]}"; do
    [ -d "$here/bench/edits/$name" ] || fail "there are no edits in bench/edits/$name"
    [ -d "$here/crates/$name/src" ] || fail "there is no crate $name: its edits in bench/edits go with it"
done

copy=$(mktemp -d)
trap 'rm -rf "$copy"' EXIT
cp "$here/crates.txt" "$here/HANDLES" "$copy/"
mkdir "$copy/crates"
for crate in "$here"/crates/*/; do
    name=$(basename "$crate")
    mkdir "$copy/crates/$name"
    for part in "$crate"*; do
        case "$(basename "$part")" in
            out | must-fail) ;;
            *) cp -r "$part" "$copy/crates/$name/" ;;
        esac
    done
done
for name in "${names[@]}"; do
    cp -r "$here/bench/edits/$name" "$copy/crates/$name/must-fail"
done
cd "$copy"
rt must-fail "${names[@]}"
