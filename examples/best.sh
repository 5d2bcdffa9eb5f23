#!/bin/sh
# best.sh PROGRAM INSTANCE SEEDS REPORT: solves the instance with the seeds from 1 to SEEDS, with four workers of each kind and 1,000
# rounds, and keeps the cheapest report that the check finds valid.
least=
for seed in $(seq "$3"); do
    "$1" solve 4 4 1000 "$seed" < "$2" > "$4.part" || exit 1
    valid=$("$1" check < "$4.part") || exit 1
    cost=$(echo "$valid" | sed 's/^valid cost \([0-9]*\) .*/\1/')
    if [ -z "$least" ] || [ "$cost" -lt "$least" ]; then
        least=$cost
        mv "$4.part" "$4"
        echo "seed $seed: $valid"
    fi
done
rm -f "$4.part"
