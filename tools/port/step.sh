#!/bin/bash
# tools/port/step.sh CRATE: turns the walks (proofs/F/Proof.antt) that the commit of port.py has into proofs/F/Invariants.antt and Answers.antt, by
# the names that rt lists, and checks the crate. It overwrites both files of each function: for the port alone.
c=$1
R=$(cd "$(dirname "$0")/../.." && pwd)
cd "$R/crates/$c" || exit 1
O=$(mktemp -d)
git archive 23aaeae proofs 2>/dev/null | tar x -C "$O"
G=$(mktemp -d)
rt check --generated "$G" --old-names > "$G/log" 2>&1
if [ -f "$G/names.json" ]; then
    echo "left by hand:"
    python3 "$R/tools/port/convert_proofs.py" "$c" "$O/proofs" "$G/names.json" proofs
    (cd proofs && find . -mindepth 2 -name Proof.antt | while read -r f; do
        if [ -f "$(dirname "$f")/Answers.antt" ] || [ -f "$(dirname "$f")/Invariants.antt" ] || grep -q 'Tie as tie' "$f"; then rm "$f"; fi
    done; find . -type d -empty -delete)
else
    tail -5 "$G/log" | cut -c1-400
fi
rt fmt > /dev/null 2>&1
rt check 2>&1 | grep -E 'error|^fn.*(no proof|not)|must prove|logic=' | cut -c1-400
