#!/bin/sh
# A worker for one partition:   bully-member run --each .. -- each.sh FOLDER
# It is started and stopped alone, by a token of its own, and goes on while only other partitions move. As `worker.sh` it adds a line to the file
# of its partition, which refuses an older token.
file=$1/$BULLY_PARTITION
while :; do
    (
        flock 9 # until the subshell ends
        last=$(tail -n 1 "$file")
        if [ "${last%% *}" -gt "$BULLY_TOKEN" ] 2>/dev/null; then
            echo "$BULLY_NODE: partition $BULLY_PARTITION has seen a newer token than $BULLY_TOKEN" >&2
            exit 1
        fi
        echo "$BULLY_TOKEN $BULLY_NODE" >&9
    ) 9>>"$file" || exit 1
    sleep 0.1
done
