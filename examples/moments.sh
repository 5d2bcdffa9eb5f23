#!/bin/sh
# moments.sh PROGRAM REPORT FOLDER: writes into FOLDER the solution after each commit of the report, from 0.solution.json on.
# Of a report that isn't right it prints why, and fails.
k=0
while "$1" rewind "$k" < "$2" > "$3/$k.solution.json"; do
    k=$((k + 1))
done
[ "$k" -gt 0 ] || cat "$3/0.solution.json" >&2
rm "$3/$k.solution.json"
[ "$k" -gt 0 ]
