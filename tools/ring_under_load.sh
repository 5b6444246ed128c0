#!/bin/sh
# Moves samples through shared rings again and again while every processor is kept busy, and looks
# whether a run hangs or loses a sample. About ten seconds a run; it is no part of the gate.
#     tools/ring_under_load.sh [RUNS [SAMPLES [SECONDS]]]
# RUNS is 20, SAMPLES 120,000, and SECONDS, after which a run is said to hang, 600. In a run SAMPLES go
# through a large ring three times and through four rings at once, and a tenth of them three times
# through one of 64 cells: 10,320,000 in all. Through rings of one to three cells go a thousandth of
# them nine times, since each of these waits for the processor.
cd "$(dirname "$0")/.." || exit 1
runs=${1:-20} samples=${2:-120000} limit=${3:-600}
program=$(pwd)/crates/cm_load/out/cm_load
if [ ! -x "$program" ]; then
    (cd crates/cm_load && rt run -- 100 1) >/dev/null || { echo "the program isn't built"; exit 1; }
fi

. tools/busy_loops.sh
work=$(mktemp -d) || exit 1
tried=
trap 'stop_loops; kill $tried 2>/dev/null; rm -rf "$work"' EXIT
trap 'exit 1' HUP INT TERM
start_loops

hung=0 lost=0 failed=0 run=1
while [ $run -le "$runs" ]; do
    timeout "$limit" "$program" "$samples" 1 >"$work/text" 2>"$work/error" &
    tried=$!
    wait $tried
    status=$? tried=
    right=$(grep -c 'samples in order$' "$work/text")
    if [ $status = 124 ]; then
        hung=$((hung + 1))
        echo "run $run hung after $right cases"
    elif [ $status = 3 ]; then
        lost=$((lost + 1))
        echo "run $run lost samples:"
        grep -v 'samples in order$' "$work/text"
    elif [ $status != 0 ] || [ "$right" != 16 ]; then
        failed=$((failed + 1))
        echo "run $run failed with status $status after $right cases:"
        head -n 3 "$work/error"
    fi
    run=$((run + 1))
done

if [ $((hung + lost + failed)) = 0 ]; then
    echo "$runs runs, none hung, none lost a sample"
else
    echo "$runs runs, $hung hung, $lost lost samples, $failed failed otherwise"
    exit 1
fi
