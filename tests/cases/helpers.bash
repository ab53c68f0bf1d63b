# What the commands of the cases may use beside coreutils and `bully`.

# Prints a trace of one node with so many claims behind its header, each of them true.
claims() {
    echo 'bully,1,1,1'
    yes 'saw,1,down,-' | head -n "$1"
}

# Prints a trace of one node that owns all of 4,096 partitions, with so many claims behind that, each of them true.
owner() {
    printf 'bully,2,1,4096,1,clear\nrecover,1\nmove,1\nmove,1\nmove,1\nplan,1,%s\nmove,1\n' \
        "$(yes 1 | head -n 4096 | paste -sd ' ')"
    yes 'saw,1,normal,1' | head -n "$1"
}

# Prints the configuration of one node with so many faults, each of them its recovery at the first turn.
faults() {
    head -n 5 one_node.toml
    yes "$(tail -n 4 one_node.toml)" | head -n $((4 * $1))
}

# Prints a configuration of three nodes, of which one recovers at the first turn and one crashes at the last.
good() {
    printf 'nodes = 3\npartitions = 4\nevents = 100\nturns = 9\nnames = ["a", "b", "c"]\n'
    printf '[[fault]]\nat = %s\nnode = "%s"\nkind = "%s"\n' 1 a recover 9 c crash
}

# Plays that configuration as each line of the input edits it: after `Ok`, or the fault that it has then, and a colon comes
# what `sed` does. Prints what is otherwise.
edited() {
    local line wanted said
    while IFS= read -r line; do
        wanted=${line%%: *}
        [ "$wanted" = Ok ] && wanted='0 ' || wanted="3 bully: config: $wanted"
        good | sed "${line#*: }" >edited.toml
        bully play edited.toml 2>said >played
        said="$? $(cat said)"
        [ "$said" = "$wanted" ] || echo "$line, and not $said"
    done
}

# Judges a trace for each line of the input: its name, the verdict or the fault, and its rows, with slashes between them.
# Prints what is otherwise.
judged() {
    local name wanted rows said
    while IFS='|' read -r name wanted rows; do
        rows=${rows# } wanted=${wanted# } wanted=${wanted% }
        case $wanted in
            refused* | differs*) wanted="1, $wanted, " ;;
            *) wanted="3, , bully: trace $wanted" ;;
        esac
        printf '%s\n' "${rows// \/ /$'\n'}" | bully check >verdict 2>fault
        said="$?, $(cat verdict), $(cat fault)"
        [ "$said" = "$wanted" ] || echo "$name: $said, and not $wanted"
    done
}

# Judges the trace of the input, and prints the verdict or the fault. Then it judges the upgraded trace, or takes the fault
# for which it isn't upgraded, and tells where that is something else.
judge() {
    cat >trace.csv
    bully check <trace.csv >verdict 2>&1
    cat verdict
    if bully upgrade <trace.csv >upgraded.csv 2>told; then
        bully check <upgraded.csv >told
    else
        cat upgraded.csv >>told
    fi
    cmp verdict told
}

# Prints the configuration of so many nodes with 256 partitions, which recover at the first turn, and so many turns.
group() {
    printf 'nodes = %s\npartitions = 256\nevents = 1000000\nturns = %s\nnames = [%s]\n' \
        "$1" "$2" "$(seq -s ', ' -f '"%g"' 1 "$1")"
    seq -f $'[[fault]]\nat = 1\nnode = "%g"\nkind = "recover"' 1 "$1"
}

# Prints the configuration of 1,024 nodes with 4,096 partitions, of which the last one recovers.
largest() {
    group 1024 3075 | sed '/^\[\[/,$d; s/^partitions.*/partitions = 4096/; s/^events.*/events = 10000/'
    tail -n 4 one_node.toml | sed 's/"a"/"1024"/'
}

# Prints a trace of 1,024 nodes and two partitions, of which the first and the last one are up, up to this plan of the last one.
outermost() {
    printf 'bully,2,1024,2,%s,clear\n%s\n' "$(yes 1 | head -n 1024 | paste -sd ' ')" $'recover,1\nrecover,1024\nmove,1024'
    yes $'start,1024\nlose,1024\nreturn,1024' | head -n 3066
    printf '%s,1024\n' start run return move start run return move
    echo "plan,1024,$1"
}

# Plays a group of so many nodes with a period of four turns for each: all recover; after 10 turns for each of them the
# highest crashes, and after 24 it comes back, where the play is so long. Its length is the second word, in turns for
# each node. Prints how many nodes are Normal under the highest one that is up.
resting() {
    local nodes=$1 turns=$(($1 * $2)) up=$1
    {
        group "$nodes" "$turns" | sed "s/^turns.*/&\nperiod = $((4 * nodes))/"
        for fault in 10,crash 24,recover; do
            if (($2 > ${fault%,*})); then
                printf '[[fault]]\nat = %s\nnode = "%s"\nkind = "%s"\n' "$((nodes * ${fault%,*} + 1))" "$nodes" "${fault#*,}"
                up=$((nodes - 1))
            fi
        done
    } >resting.toml
    (($2 <= 24)) || up=$nodes
    bully play resting.toml | bully check | grep -c "^[0-9]* normal $up $up "
}

# Prints a fault of the node at the turn `at`, and notes what the node is behind it.
node_fault() {
    printf '[[fault]]\nat = %s\nnode = "%s"\nkind = "%s"\n' "$at" "$1" "$2"
    last[$1]=$2
}

# Draws a number below the word from `seed`: `drawn`.
draw_below() {
    seed=$((seed * 6364136223846793005 + 1442695040888963407))
    drawn=$(((seed >> 33 & 0x7fffffff) % $1))
}

# Goes on by as many turns as the first word says, and by fewer than the second one more.
later() {
    draw_below "$2"
    at=$((at + $1 + drawn))
}

# The highest node that lives crashes, which is the coordinator or is about to be.
crash_highest() {
    local node
    for node in 5 4 3 2 1; do
        if [[ ${last[node]} == recover ]]; then
            node_fault "$node" crash
            return
        fi
    done
}

# All nodes of `order` have the fault, with fewer turns between two of them than the second word says.
fault_each() {
    local node
    for node in "${order[@]}"; do
        node_fault "$node" "$1"
        later 0 "$2"
    done
}

# All recover, with fewer turns between than the word says; then the highest one crashes in mid-election.
begin_election() {
    fault_each recover "$1"
    later 2 40
    crash_highest
    later 2 30
}

# Prints a configuration of five nodes in an order: its five digits tell it from the last to the first, 0 for node 1.
# Twice the nodes recover in this order, the first time all crash thereafter; and each time the highest one crashes in
# mid-election, the next one too, and some come back. `last` has then the last fault of each node.
shaken() {
    local place order=() at=1 seed=$((5#$1)) drawn
    last=(- crash crash crash crash crash)
    for place in 4 3 2 1 0; do
        order+=($((${1:place:1} + 1)))
    done
    printf 'nodes = 5\npartitions = 7\nevents = 100000\nturns = 2000\nperiod = 16\nnames = ["1", "2", "3", "4", "5"]\n'
    begin_election 6
    crash_highest
    later 0 60
    fault_each crash 4
    later 0 20
    begin_election 30
    draw_below 2
    if [[ $drawn == 0 ]]; then crash_highest; else fault_each recover 10; fi
}

# Whether what is played of the configuration is lawful and comes to rest: each node that lives by `last` is Normal under
# the highest one of them, with the owners that this one has, and the others are Down.
comes_to_rest() {
    local node highest owners
    bully play "$1" >played.csv && bully check <played.csv >verdict || return
    for node in 1 2 3 4 5; do
        [[ ${last[node]} != recover ]] || highest=$node
    done
    owners=$(sed -n "s/^$highest normal $highest $highest //p" verdict)
    {
        echo "lawful $(($(wc -l <played.csv) - 1))"
        for node in 1 2 3 4 5; do
            if [[ ${last[node]} == recover ]]; then
                echo "$node normal $highest $highest $owners"
            else
                echo "$node down - - -"
            fi
        done
    } | cmp -s - verdict
}

# Prints so many times a number, parted by spaces.
numbers() {
    yes "$2" | head -n "$1" | paste -s -d ' ' | tr -d '\n'
}

# Prints so many bytes of a row that has no form.
long() {
    head -c "$1" /dev/zero | tr '\0' x
}

# Prints the configuration of one node with a comment of so many bytes.
comment() {
    cat one_node.toml
    printf '# '
    head -c "$1" /dev/zero | tr '\0' x
}

# Runs a command whose standard output is a pipe that nobody reads any more.
without_reader() {
    mkfifo pipe
    exec {both}<>pipe {pipe}>pipe {both}>&-
    "$@" >&"$pipe"
}

# Runs a command into a file that takes K bytes and no more, for each K below the number of bytes that it writes. Prints
# how many times the command told so, with status 4, and the first K bytes were taken, and how many times it was run.
narrowed() {
    local size room right=0
    eval "$1" >whole
    size=$(wc -c <whole)
    for ((room = 0; room < size; room++)); do
        # (the file may have 1,024 bytes, of which all but K are there)
        head -c $((1024 - room)) /dev/zero >file
        (trap '' XFSZ && ulimit -f 1 && eval "$1" >>file 2>told)
        [[ $? == 4 && $(<told) == 'bully: Write' ]] && head -c "$room" whole >front && tail -c "$room" file | cmp -s - front &&
            right=$((right + 1))
    done
    echo "$right of $size"
}

# Runs a command as a user to whom no file of others is open: root reads every file.
as_nobody() {
    if [[ $EUID == 0 ]]; then
        setpriv --reuid=65534 --regid=65534 --clear-groups "$@"
    else
        "$@"
    fi
}

# Runs a command in at most so many KiB of address space. The program needs some 3,200 to start.
within() {
    ulimit -v "$1"
    shift
    "$@"
}
