# The sums are those that exact fractions give: of each name the ends less the starts, each taken as its nearest nanosecond.
cat "$(dirname "$0")/../../../../examples/traces/go_build.json"
