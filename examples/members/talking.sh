#!/usr/bin/env bash
# The same in bash:   bully-member run --talk .. -- talking.sh FOLDER
# A line comes as `talking.py` shows it: in this order, with a space behind each comma and colon.
set -u
folder=$1 token=0 partitions=() line=''

# A unit of work on a partition.
work() {
    local last
    flock 9 # until the descriptor is closed
    last=$(tail -n 1 "$folder/$1")
    if [[ -n $last && ${last%% *} -gt $token ]]; then
        echo "$BULLY_NODE: partition $1 has seen a newer token than $token" >&2
        exit 1
    fi
    echo "$token $BULLY_NODE" >&9
}

while :; do
    part=''
    if ((${#partitions[@]})); then
        IFS= read -r -t 0.1 part
    else
        IFS= read -r part
    fi
    status=$?
    line+=$part
    if ((status > 128)); then # no line came meanwhile
        for partition in "${partitions[@]}"; do
            work "$partition" 9>>"$folder/$partition"
        done
    elif ((status > 0)); then
        exit # its member is gone
    else
        if [[ $line =~ ^\{\"begin\":\ ([0-9]+),\ \"partitions\":\ \[([0-9, ]*)\] ]]; then
            token=${BASH_REMATCH[1]}
            read -ra partitions <<<"${BASH_REMATCH[2]//,/}"
        elif [[ $line =~ ^\{\"stop\":\ \[([0-9, ]*)\] ]]; then
            kept=()
            for partition in "${partitions[@]}"; do
                [[ " ${BASH_REMATCH[1]//,/} " == *" $partition "* ]] || kept+=("$partition")
            done
            partitions=(${kept[@]+"${kept[@]}"})
            echo stopped >&"$BULLY_ANSWERS"
        else
            partitions=()
            echo stopped >&"$BULLY_ANSWERS"
        fi
        line=''
    fi
done
