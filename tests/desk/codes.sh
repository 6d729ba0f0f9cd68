# What steps answer: each code, and the rules that decide between codes, servers and writes. Read by tests/desk/run.

# Line 1, then steps, each with its answer after it.
answered() { # NAME LINE-1 [STEP ANSWER]...
    local name=$1 input=$2'\n' expected=''
    shift 2
    while [ $# -gt 0 ]; do
        input+=$1'\n'
        expected+=$2'\n'
        shift 2
    done
    case_of "$name" "$input" "$expected"
}

zeros='0 0 0 0 0'
out_of_range='2 0 0 0 0'
wrong_slot='3 0 0 0 0'
to_itself='4 0 0 0 0'
no_reach='5 0 0 0 0'
behind='6 0 0 0 0'
full='7 0 0 0 0'

# 2: out of range. Such a line is good; it is answered.
answered '2: slot' '2 4 1' 'o 0 0' "$zeros" 'o 1 0' "$out_of_range" 'c 1' "$out_of_range" 'r 1 7 1' "$out_of_range" 'w 1 7 50 1' "$out_of_range"
answered '2: guarantees' '2 4 1' 'o 0 16' "$out_of_range" 'o 0 4294967295' "$out_of_range" 'o 0 15' "$zeros"
answered '2: item' '2 4 1' 'o 0 0' "$zeros" 'r 0 256 1' "$out_of_range" 'w 0 256 50 1' "$out_of_range" 'w 0 255 50 1' '0 0 0 1 50' 'r 0 255 1' '0 0 0 1 50'
answered '2: reach 4 with two servers' '2 4 1' 'o 0 0' "$zeros" 'r 0 7 4' "$out_of_range" 'w 0 7 50 4' "$out_of_range"
answered '2: reach 5, of which one server is there' '2 4 1' 'o 0 0' "$zeros" 'r 0 7 5' "$out_of_range" 'w 0 7 50 5' "$out_of_range"
answered '2: server' '2 4 1' 'x 2 0 9' "$out_of_range" 'x 0 2 9' "$out_of_range"
answered '2: 4294967295 everywhere' '2 4 1' 'o 0 0' "$zeros" 'o 4294967295 0' "$out_of_range" 'c 4294967295' "$out_of_range" 'r 4294967295 7 1' "$out_of_range" \
    'r 0 4294967295 1' "$out_of_range" 'r 0 7 4294967295' "$out_of_range" 'w 4294967295 7 50 1' "$out_of_range" 'w 0 4294967295 50 1' "$out_of_range" \
    'w 0 7 50 4294967295' "$out_of_range" 'x 4294967295 0 9' "$out_of_range" 'x 0 4294967295 9' "$out_of_range"
answered '2: 256 and more do not fold into a small number' '2 4 1' 'o 256 0' "$out_of_range" 'o 65536 0' "$out_of_range" 'o 0 256' "$out_of_range" 'o 0 0' "$zeros" \
    'r 0 263 1' "$out_of_range" 'r 0 7 257' "$out_of_range" 'r 0 7 65537' "$out_of_range" 'x 256 1 9' "$out_of_range" 'x 0 257 9' "$out_of_range"

# 3: open of an open slot, the rest on a closed one
answered '3: open twice' '2 4 2' 'o 0 1' "$zeros" 'o 0 1' "$wrong_slot" 'o 1 1' "$zeros"
answered '3: closed from the start' '2 4 1' 'c 0' "$wrong_slot" 'r 0 7 1' "$wrong_slot" 'w 0 7 50 1' "$wrong_slot"
answered '3: closed again' '2 4 1' 'o 0 0' "$zeros" 'c 0' "$zeros" 'c 0' "$wrong_slot" 'r 0 7 1' "$wrong_slot" 'w 0 7 50 1' "$wrong_slot" 'o 0 0' "$zeros"
answered '4: a server to itself' '2 4 1' 'x 0 0 9' "$to_itself" 'x 1 1 0' "$to_itself"
answered '5: reach is 0' '2 4 1' 'o 0 0' "$zeros" 'r 0 7 0' "$no_reach" 'w 0 7 50 0' "$no_reach"

# 6: behind, for each guarantee; the other three together do not ask for it
answered '6: Read Your Writes' '2 4 2' 'o 0 1' "$zeros" 'o 1 14' "$zeros" 'w 0 7 50 1' '0 0 0 1 50' 'w 1 8 51 1' '0 0 0 2 51' \
    'r 0 7 2' "$behind" 'r 1 7 2' '0 1 0 0 0'
answered '6: Monotonic Reads' '2 4 3' 'o 2 0' "$zeros" 'o 0 2' "$zeros" 'o 1 13' "$zeros" 'w 2 7 50 1' '0 0 0 1 50' 'r 0 7 1' '0 0 0 1 50' 'r 1 7 1' '0 0 0 1 50' \
    'r 0 7 2' "$behind" 'r 1 7 2' '0 1 0 0 0'
answered '6: Writes Follow Reads' '2 4 3' 'o 2 0' "$zeros" 'o 0 4' "$zeros" 'o 1 11' "$zeros" 'w 2 7 50 1' '0 0 0 1 50' 'r 0 7 1' '0 0 0 1 50' 'r 1 7 1' '0 0 0 1 50' \
    'w 0 7 60 2' "$behind" 'w 1 7 60 2' '0 1 1 1 60'
answered '6: Monotonic Writes' '2 4 2' 'o 0 8' "$zeros" 'o 1 7' "$zeros" 'w 0 7 50 1' '0 0 0 1 50' 'w 1 8 51 1' '0 0 0 2 51' \
    'w 0 7 60 2' "$behind" 'w 1 7 60 2' '0 1 1 1 60'
answered '6: a read asks for every write that the server held, not only those on the item' '2 4 2' 'o 0 0' "$zeros" 'o 1 2' "$zeros" 'w 0 9 50 1' '0 0 0 1 50' \
    'r 1 7 1' '0 0 0 0 0' 'r 1 7 2' "$behind"
answered '6: more in one component does not make up for less in another' '2 4 2' 'o 0 2' "$zeros" 'o 1 0' "$zeros" 'w 1 7 50 1' '0 0 0 1 50' 'r 0 7 1' '0 0 0 1 50' \
    'x 0 1 9' '0 1 0 0 1' 'w 1 7 60 2' '0 1 1 2 60' 'w 1 7 70 1' '0 0 0 2 70' 'r 0 7 2' '0 1 1 2 60' 'r 0 7 1' "$behind" 'x 0 1 9' '0 1 0 0 1' 'r 0 7 3' '0 1 1 2 60'

# 7: full
answered '7: one place, a second write at the same server' '2 1 1' 'o 0 0' "$zeros" 'w 0 7 50 1' '0 0 0 1 50' 'w 0 7 60 1' "$full" 'w 0 7 60 2' '0 1 1 1 60' 'w 0 7 70 3' "$full"
answered '6, not 7: behind and full together' '2 1 2' 'o 0 8' "$zeros" 'o 1 0' "$zeros" 'w 0 7 50 1' '0 0 0 1 50' 'w 1 7 60 2' '0 1 1 1 60' 'w 0 7 70 2' "$behind"
answered '7, not 6: one server full and up to date, one behind and free' '2 2 2' 'o 0 8' "$zeros" 'o 1 0' "$zeros" 'w 0 7 50 1' '0 0 0 1 50' 'w 0 7 60 1' '0 0 0 2 60' 'w 0 7 70 3' "$full"
answered 'a full server is passed over for a write, not for a read' '2 1 1' 'o 0 0' "$zeros" 'w 0 7 50 3' '0 0 0 1 50' 'w 0 8 60 3' '0 1 1 1 60' 'w 0 7 70 3' "$full" \
    'r 0 8 3' '0 1 1 1 60' 'r 0 8 1' '0 0 0 0 0'

# Of several faults the smallest code
answered '2 before 3' '2 4 1' 'r 0 256 1' "$out_of_range" 'w 0 7 50 4' "$out_of_range" 'o 0 0' "$zeros" 'o 0 16' "$out_of_range"
answered '2 before 4' '2 4 1' 'x 2 2 9' "$out_of_range"
answered '2 before 5' '2 4 1' 'o 0 0' "$zeros" 'r 0 256 0' "$out_of_range" 'w 0 256 50 0' "$out_of_range"
answered '3 before 5' '2 4 1' 'r 0 7 0' "$wrong_slot" 'w 0 7 50 0' "$wrong_slot"
answered '5 before 6 and 7' '2 1 1' 'o 0 15' "$zeros" 'w 0 7 50 1' '0 0 0 1 50' 'r 0 7 0' "$no_reach" 'w 0 7 60 0' "$no_reach"

# The choice of a server
answered 'the search begins at server 0' '3 4 1' 'o 0 0' "$zeros" 'r 0 7 7' '0 0 0 0 0'
answered 'the search begins at the last-used server' '3 4 1' 'o 0 0' "$zeros" 'r 0 7 2' '0 1 0 0 0' 'r 0 7 7' '0 1 0 0 0' 'w 0 7 50 4' '0 2 2 1 50' 'r 0 7 7' '0 2 2 1 50'
answered 'the search goes up and from the last server to 0' '4 4 1' 'o 0 0' "$zeros" 'r 0 7 4' '0 2 0 0 0' 'r 0 7 11' '0 3 0 0 0' 'r 0 7 3' '0 0 0 0 0' 'r 0 7 12' '0 2 0 0 0' 'r 0 7 3' '0 0 0 0 0'
answered 'the last-used server is checked too' '2 4 1' 'o 0 1' "$zeros" 'w 0 7 50 2' '0 1 1 1 50' 'w 0 7 60 1' '0 0 0 1 60' 'r 0 7 1' "$behind" 'r 0 7 3' "$behind"
answered 'a refusal leaves the last-used server' '3 1 1' 'o 0 8' "$zeros" 'w 0 7 50 2' '0 1 1 1 50' 'w 0 7 60 4' "$behind" 'w 0 7 60 3' "$full" 'r 0 7 7' '0 1 1 1 50'
answered 'a reopened slot is a new session' '3 4 1' 'o 0 15' "$zeros" 'w 0 7 50 2' '0 1 1 1 50' 'r 0 7 2' '0 1 1 1 50' 'c 0' "$zeros" 'o 0 15' "$zeros" 'r 0 7 7' '0 0 0 0 0' 'w 0 7 60 1' '0 0 0 1 60'

# Clocks and the order of writes
answered 'the last write in the order of clocks, then origins' '2 4 1' 'o 0 0' "$zeros" 'w 0 7 50 2' '0 1 1 1 50' 'w 0 7 60 1' '0 0 0 1 60' 'x 1 0 9' '0 0 1 0 1' 'r 0 7 1' '0 0 1 1 50' \
    'x 0 1 9' '0 1 0 0 1' 'r 0 7 2' '0 1 1 1 50'
answered 'a clock is one more than every clock at the server' '3 5 1' 'o 0 0' "$zeros" 'w 0 7 50 1' '0 0 0 1 50' 'w 0 7 60 1' '0 0 0 2 60' 'x 0 1 9' '0 1 0 0 2' 'w 0 7 70 2' '0 1 1 3 70' \
    'w 0 7 80 4' '0 2 2 1 80' 'x 1 2 9' '0 2 1 0 3' 'w 0 7 90 4' '0 2 2 4 90'
answered 'a read finds the item' '1 4 1' 'o 0 0' "$zeros" 'w 0 7 50 1' '0 0 0 1 50' 'w 0 8 60 1' '0 0 0 2 60' 'w 0 7 70 1' '0 0 0 3 70' 'r 0 8 1' '0 0 0 2 60' 'r 0 7 1' '0 0 0 3 70' 'r 0 0 1' '0 0 0 0 0'

# Exchange: the least of what is missing, most, and the free places
answered 'exchange: nothing there, nothing wanted' '2 4 1' 'x 0 1 9' '0 1 0 0 0' 'o 0 0' "$zeros" 'w 0 7 50 1' '0 0 0 1 50' 'x 0 1 0' '0 1 0 0 0' 'x 0 1 4294967295' '0 1 0 0 1' 'x 0 1 9' '0 1 0 0 0'
answered 'exchange: the earliest writes go first' '2 4 1' 'o 0 0' "$zeros" 'w 0 7 50 1' '0 0 0 1 50' 'w 0 7 60 1' '0 0 0 2 60' 'w 0 7 70 1' '0 0 0 3 70' \
    'x 0 1 1' '0 1 0 0 1' 'r 0 7 2' '0 1 0 1 50' 'x 0 1 1' '0 1 0 0 1' 'r 0 7 2' '0 1 0 2 60' 'x 0 1 9' '0 1 0 0 1' 'r 0 7 2' '0 1 0 3 70'
answered 'exchange: only as many as have a place' '2 2 1' 'o 0 0' "$zeros" 'w 0 7 50 1' '0 0 0 1 50' 'w 0 7 60 1' '0 0 0 2 60' 'w 0 8 70 2' '0 1 1 1 70' \
    'x 0 1 9' '0 1 0 0 1' 'r 0 7 2' '0 1 0 1 50' 'x 0 1 9' '0 1 0 0 0' 'x 1 0 9' '0 0 1 0 0'
answered 'exchange: a write goes on from a server that is not its origin' '3 4 1' 'o 0 1' "$zeros" 'w 0 7 50 1' '0 0 0 1 50' 'x 0 1 9' '0 1 0 0 1' 'x 1 2 9' '0 2 1 0 1' 'r 0 7 4' '0 2 0 1 50'
