#!/usr/bin/env bash
# Holds a solver against clasp on drawn sheets and prints how many agree.
#
#   outside/clasp.sh [COUNT [FIRST_SEED]]
#
# The solver is the program crates/solve/out/solve of the repository where it is
# built, and else the plain solver of this package; SOLVE=program names
# another. clasp reads ground rules, so gringo is not needed. Where clasp is
# missing, this says so and ends well. The first disagreement is printed with
# its seed and its sheet, and ends with 1.
set -euo pipefail

count=${1:-1000}
first=${2:-0}
here=$(cd "$(dirname "$0")" && pwd)

if ! command -v clasp >/dev/null; then
    echo "clasp is not on this machine; nothing was compared"
    exit 0
fi

cargo build --quiet --release -j1 --manifest-path "$here/Cargo.toml" --bin sheets
sheets=$here/target/release/sheets
solve=${SOLVE:-$here/../crates/solve/out/solve}
name=$(basename "$solve")
if [ ! -x "$solve" ]; then
    solve="$sheets solve"
    name="plain solver"
fi

work=$(mktemp -d)
trap 'rm -rf "$work"' EXIT
models=0

for ((seed = first; seed < first + count; seed++)); do
    "$sheets" make "$seed" >"$work/sheet"
    found=$($solve <"$work/sheet")
    "$sheets" smodels <"$work/sheet" >"$work/text"
    # clasp tells its result by its exit status, which is never 0.
    clasp 0 <"$work/text" >"$work/models" 2>&1 || true
    wanted=$("$sheets" first <"$work/models")
    if [ "$found" != "$wanted" ]; then
        echo "seed $seed: clasp says \"$wanted\", the solver says \"$found\""
        echo "sheet $("$sheets" hex <"$work/sheet")"
        exit 1
    fi
    if [ "$found" != NONE ]; then
        models=$((models + 1))
    fi
done

echo "$name agrees with clasp on $count sheets from seed $first: $models with a model, $((count - models)) without"
