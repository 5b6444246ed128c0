# For scripts that run something while every processor is kept busy: `start_loops` starts as many loops
# as there are processors, and `stop_loops` ends them. A loop ends without it, too, when the script does.
loops=
busy_loop() {
    while kill -0 $$ 2>/dev/null; do
        i=0
        while [ $i -lt 100000 ]; do i=$((i + 1)); done
    done
}
start_loops() {
    count=$(nproc)
    while [ "$count" -gt 0 ]; do
        busy_loop &
        loops="$loops $!"
        count=$((count - 1))
    done
}
stop_loops() {
    # shellcheck disable=SC2086
    kill $loops 2>/dev/null
}
