# Whole scripts, each NAME.txt with its answers in NAME.out. Read by tests/desk/run.

# Those of examples/, which its README tells line by line
for script in examples/*.txt; do
    answers=${script%.txt}.out
    case_from "$script" "$script" "$answers"
    paste -d '|' "$script" <(echo; cat "$answers") >"$room/expected"
    awk -F ' *[|] *' -v heading="## $(basename "$script" .txt)" '
        /^## / { here = $0 == heading }
        here && $2 ~ /^`/ { gsub(/`/, ""); print $2 "|" $3 }' examples/README.md >"$room/got"
    settle "$script, as examples/README.md tells it" 0
done

# 512 steps of all kinds with all codes, on few, some and many servers. These answers, and those to the largest script, come from a second writing of
# the scope paper's rules, made apart from the program.
for script in tests/desk/mixed-*.txt; do
    case_from "$script" "$script" "${script%.txt}.out"
done

# The largest script that is taken: `16 128 16`, 512 steps, 16,384 bytes. Sixteen sessions write 128 notes at sixteen servers, exchanges carry them
# everywhere until every log is full, and the other steps find the table full: reads, writes without a place, exchanges with nothing to carry, and
# long lines with a number out of range. It is to be answered within a second.
cat tests/desk/largest.out >"$room/expected"
begun=$(date +%s%N)
run_program <tests/desk/largest.txt
status=$?
milliseconds=$((($(date +%s%N) - begun) / 1000000))
settle 'tests/desk/largest.txt' "$status"
echo "the largest script took $milliseconds ms"
if [ "$milliseconds" -le 1000 ]; then
    pass
else
    fail 'the largest script, in time' "$milliseconds ms, more than 1000"
fi
