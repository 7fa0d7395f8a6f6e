#!/bin/sh
# Times the parts that matter, each beside a plain path, and prints how they compare. The first word is the
# measure, the second how many thousands of rounds it makes:
#
#   values     products and quotients of values, beside a path of 128 bits
#   prepared   quotients by one divisor that is prepared, beside `div`
#   formula    a formula at many cells, beside the same arithmetic written out
#   sequence   the operations of a run sequence by their numbers, beside from each to the next
#   weights    a file of weights that is read, beside one pass over its bytes; a round is 1,024 records
#   routes     routes of 1,024 by 1,024 cells, beside passes that write as many numbers
#   rows       weighted sums of four factors and of sixteen, beside a plain loop of 64 bits
#   mediator   sums and averages of kept fields, beside a loop of sums and one of divisions
#   sweep      a formula over a block of 126 by 47 cells, beside loops with its numbers in the code; six thousand
#              rounds for each pass over the block
set -eu
cd "$(dirname "$0")/../crates/bench"
measure="${1:?values, prepared, formula, sequence, weights, rows, routes, mediator or sweep}"
case "$measure" in
    sequence) rounds="${2:-400}" ;;
    routes) rounds="${2:-5000}" ;;
    weights) rounds="${2:-1024}" ;;
    mediator) rounds="${2:-20000}" ;;
    sweep) rounds="${2:-60000}" ;;
    formula | rows) rounds="${2:-10000}" ;;
    *) rounds="${2:-100000}" ;;
esac
rt run > /dev/null 2>&1
./out/bench "$measure" "$rounds" 2>&1 > /dev/null | awk '
    { nanos[$1] = $2; printf "%s %d nanoseconds\n", $1, $2 }
    function ratio(slow, fast) {
        if (slow in nanos && fast in nanos)
            printf "%s takes %.2f times as long as %s\n", slow, nanos[slow] / nanos[fast], fast
    }
    END {
        ratio("plain_products", "products")
        ratio("plain_quotients", "quotients")
        ratio("by_div", "prepared")
        ratio("formula", "plain_formula")
        ratio("op", "next")
        ratio("read_weights", "plain_pass")
        ratio("onto_columns", "written")
        ratio("onto_rows", "written")
        ratio("halo", "written_halo")
        ratio("halo_of_columns", "written_halo_of_columns")
        ratio("rows_of_4", "plain_rows_of_4")
        ratio("rows_of_16", "plain_rows_of_16")
        ratio("adds", "plain_adds")
        ratio("averages", "plain_averages")
        ratio("sweep", "plain_sweep")
    }'
