#!/bin/sh
# The same in shell:   bully-member run .. -- worker.sh FOLDER
folder=$1
while :; do
    for partition in $BULLY_PARTITIONS; do
        (
            flock 9 # until the subshell ends
            last=$(tail -n 1 "$folder/$partition")
            if [ "${last%% *}" -gt "$BULLY_TOKEN" ] 2>/dev/null; then
                echo "$BULLY_NODE: partition $partition has seen a newer token than $BULLY_TOKEN" >&2
                exit 1
            fi
            echo "$BULLY_TOKEN $BULLY_NODE" >&9
        ) 9>>"$folder/$partition" || exit 1
    done
    sleep 0.1
done
