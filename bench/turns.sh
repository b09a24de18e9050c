#!/bin/sh
# Times turns of the mover by the tests of page_mover, which the gate builds: turns at the plan of a light page and of a full
# one, and the shifts of 65,536 lines in 1,024 pages.
tests=$(dirname "$0")/../crates/page_mover/out/page_mover_tests

# The nanoseconds that a test takes, the least of seven runs.
nanoseconds() {
    least=
    for run in 1 2 3 4 5 6 7; do
        start=$(date +%s%N)
        "$tests" "tests::$1" >/dev/null || exit 1
        taken=$(($(date +%s%N) - start))
        if [ -z "$least" ] || [ "$taken" -lt "$least" ]; then least=$taken; fi
    done
    echo "$least"
}

light=$(nanoseconds turns_at_the_plan_of_a_light_page) || exit 1
full=$(nanoseconds turns_at_the_plan_of_a_full_page) || exit 1
before=$(nanoseconds pages_before_their_shifts) || exit 1
shifted=$(nanoseconds pages_with_their_shifts) || exit 1
echo "a turn at the plan: $((light / 1048576)) ns on a light page, $((full / 1048576)) ns on a full one"
echo "a shift: $(((shifted - before) / 65536)) ns"
