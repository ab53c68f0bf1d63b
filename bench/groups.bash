# For the scripts beside this one: configurations, written line by line, and what a run takes.

# Begins one: nodes, partitions and turns. The nodes are named by their numbers.
group() {
    echo "nodes = $1"
    echo "partitions = $2"
    echo "events = 1000000"
    echo "turns = $3"
    echo "names = [$(seq -s ', ' -f '"%g"' 1 "$1")]"
}

# A fault: its turn, its node and its kind.
fault() {
    printf '[[fault]]\nat = %s\nnode = "%s"\nkind = "%s"\n' "$1" "$2" "$3"
}

# All of so many nodes recover in the first turn.
all_recover() {
    for node in $(seq 1 "$1"); do
        fault 1 "$node" recover
    done
}

# Runs a command whose output goes to this file, and prints its peak of memory in KiB.
peak_of() {
    local process peak=0 line
    "${@:2}" > "$1" &
    process=$!
    while line=$(grep VmHWM "/proc/$process/status" 2> "$folder/ended"); do
        peak=${line//[^0-9]/}
        sleep 0.1
    done
    wait "$process"
    echo "$peak"
}
