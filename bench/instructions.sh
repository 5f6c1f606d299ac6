#!/usr/bin/env bash
# Instructions of one call on 16 rows of [8, 16, 1], as valgrind counts them: a figure that other work on the machine does
# not move. bench/run.sh runs it; --training 0 leaves training out, --wide 1 counts on wide knots instead.
set -euo pipefail
cd "$(dirname "$0")/.."

rows=16
program=target/oracle/release/bench
# Builds it with the archive that is asked for: else the one that was timed last would be counted.
oracle/run.sh bench --once-intervals 5 --once-rows 1 >/dev/null
log=target/bench/callgrind.txt
wide=0
[[ " $* " != *" --wide 1 "* ]] || wide=1

# counted INTERVALS TRAINING FUNCTION..: for each row, the instructions of each function and of what it calls. TRAINING: 0 for
# predictions, 1 for training steps, 2 for the library's training step and the two calls that make the same step (on wide
# knots: for its visit map)
counted() {
    local out=target/bench/callgrind.out
    rm -f $out
    valgrind --tool=callgrind --callgrind-out-file=$out $program --once-rows $rows --once-intervals "$1" --training "$2" \
        --wide $wide >$log 2>&1 || { cat $log; exit 1; }
    for name in "${@:3}"; do
        callgrind_annotate --inclusive=yes --threshold=100 $out |
            awk -v name="$name" -v rows=$rows '$0 ~ name { gsub(",", "", $1); printf " %.0f |", $1 / rows; exit }'
    done
}

if [ $wide = 1 ]; then
    printf '\nInstructions for each row, [8, 16, 1], knots that span more than the largest float\n\n'
    echo "| call | g | Rust | library |"
    echo "|---|---|---|---|"
    echo "| predict | 5 |$(counted 5 0 Kan::predict_batch :kan_predict)"
    echo "| visits | 5 | |$(counted 5 2 :kan_visits)"
    [[ " $* " == *" --training 0 "* ]] || echo "| train_step | 5 |$(counted 5 1 Kan::train_step :kan_train_step)"
    exit 0
fi

printf '\nInstructions for each row, [8, 16, 1]\n\n'
echo "| call | g | Rust | library | by hand |"
echo "|---|---|---|---|---|"
for g in 5 16 64 256; do
    echo "| predict | $g |$(counted $g 0 Kan::predict_batch :kan_predict :hand_predict)"
done
[[ " $* " != *" --training 0 "* ]] || exit 0
for g in 5 16 64 256; do
    echo "| train_step | $g |$(counted $g 1 Kan::train_step :kan_train_step :hand_train_step)"
done

printf '\nInstructions of the library for each row, [8, 16, 1]\n\n'
echo "| g | train_step | accumulate | apply |"
echo "|---|---|---|---|"
for g in 5 16 64 256; do
    echo "| $g |$(counted $g 2 :kan_train_step :kan_accumulate :kan_apply)"
done
