#!/bin/sh
# Runs jobs with threads again and again while every processor is kept busy, and looks whether a run
# hangs or answers anything else than it must. It is no part of the gate.
#     tools/runs_under_load.sh [RUNS [SAMPLES [SECONDS]]]
# RUNS is 20, SAMPLES, the number of a soak, 1,000,000, and SECONDS, after which a run is said to hang,
# 300. Each run is the job of four clients, a free line that has more samples than room, a soak, a watch
# over rings of eight sizes, whose workers sleep until others wake them, and a loop.
cd "$(dirname "$0")/.." || exit 1
runs=${1:-20} samples=${2:-1000000} limit=${3:-300}
program=$(pwd)/crates/comedi/out/comedi
if [ ! -x "$program" ]; then
    (cd crates/comedi && rt run -- run <../../examples/run_four_lines.txt) >/dev/null || { echo "the program isn't built"; exit 1; }
fi

. tools/busy_loops.sh
work=$(mktemp -d) || exit 1
trap 'stop_loops; rm -rf "$work"' EXIT
trap 'exit 1' HUP INT TERM

# A free line of 1,000 samples on a buffer of four.
cat >"$work/free" <<'JOB'
comedi 1
board free
subdevice ai 1
bits 8
range 0 255 0
sources now timer now count count
tick 1
scan 1 1000
convert 1 1
list 1
scans 1000
buffer 4
signals 9999
wave 0 0 saw 0 255 256
session
go free map 0 all 0 0 now:0 timer:1 now:0 count:1 count:1000 0/0/ground
JOB
# Paced lines of 5,000 samples on buffers of 1 to 129: a watch of them answers what a run answers.
{
    echo 'comedi 1'
    echo 'board rings'
    for cells in 1 2 3 7 64 127 128 129; do
        printf '%s\n' 'subdevice ai 1' 'bits 8' 'range 0 255 0' 'sources now timer now count count' 'tick 1' \
            'scan 1 1000' 'convert 1 1' 'list 1' 'scans 5000' 'lines 0' "buffer $cells"
    done
    echo 'signals 9999'
    for sub in 0 1 2 3 4 5 6 7; do
        echo "wave $sub 0 saw 0 255 $((256 + sub))"
    done
    echo session
    for sub in 0 1 2 3 4 5 6 7; do
        echo "go paced map 0 all $sub 0 now:0 timer:1 now:0 count:1 count:5000 0/0/ground"
    done
} >"$work/rings"
"$program" run <"$work/rings" >"$work/rings.answer" || { echo "a run without load failed"; exit 1; }
"$program" soak "$samples" </dev/null >"$work/soak" || { echo "a soak without load failed"; exit 1; }
start_loops

bad=0 overruns=0
# Runs the program with these words over a job, and reports a run that hangs or fails.
run() {
    job=$1
    shift
    timeout "$limit" "$program" "$@" <"$job" >"$work/text" 2>"$work/error"
    status=$?
    [ $status = 0 ] && [ ! -s "$work/error" ] && return 0
    bad=$((bad + 1))
    [ $status = 124 ] && echo "run $number hung: $*" || echo "run $number: status $status: $*"
    return 1
}
wrong() {
    bad=$((bad + 1))
    echo "run $number answers something else: $1"
}
number=1
while [ $number -le "$runs" ]; do
    run examples/run_four_lines.txt run && { cmp -s "$work/text" examples/run_four_lines.answer || wrong "four clients"; }
    run "$work/rings" watch && { cmp -s "$work/text" "$work/rings.answer" || wrong "a watch"; }
    run examples/loop_two_channels.txt loop && { cmp -s "$work/text" examples/loop_two_channels.answer || wrong "a loop"; }
    run /dev/null soak "$samples" && { cmp -s "$work/text" "$work/soak" || wrong "a soak"; }
    # The free line gives its first K samples, without a hole, and then says `overrun K` or `done`.
    if run "$work/free" run; then
        lines=$(($(wc -l <"$work/text") - 1))
        last=$(tail -n 1 "$work/text")
        i=0
        while [ $i -lt $lines ]; do
            echo "0 $((i % 256 * 255 / 256))"
            i=$((i + 1))
        done >"$work/first"
        head -n $lines "$work/text" | cmp -s - "$work/first" || wrong "a free line's samples"
        if [ "$last" = "overrun $lines" ] && [ $lines -ge 4 ] && [ $lines -lt 1000 ]; then
            overruns=$((overruns + 1))
        elif [ "$last" != done ] || [ $lines != 1000 ]; then
            wrong "a free line's end"
        fi
    fi
    number=$((number + 1))
done

echo "$runs runs, $overruns of the free lines with an overrun"
[ $bad = 0 ] && echo "none hung, and each answered what it must" || exit 1
