# Sourced by .ci/compare and .ci/many from the top of the repository: what a program writes against what the reference expects, counted in a room that the caller clears.
reference=$PWD/reference/target/release/reference
room=$(mktemp -d)
passed=0 failed=0

# same WHAT EXPECTED WRITTEN: the two files are the same
same() {
    if [ -s "$2" ] && cmp "$2" "$3"; then
        echo "$1: as the reference has it ($(wc -c <"$2") bytes)"
        passed=$((passed + 1))
    else
        echo "$1: NOT as the reference has it"
        failed=$((failed + 1))
    fi
}

# run NAME SEED COUNT PROGRAM: what the program's case NAME writes for the reference's NAME.input is NAME.expected; a record says of which standard it is, so that the case
# is the same for h263-NAME
run() {
    "$reference" "$1" "$2" "$3" "$room"
    ./pagesorrel "$4" "${1#h263-}" <"$room/$1.input" >"$room/$1.written"
    same "$1, seed $2, $3 of them" "$room/$1.expected" "$room/$1.written"
}

# salvaged PREFIX: salvages each PREFIX*.input as its .words say; how many there are, and for how many the new clip is not the .expected, the log not the .log or the status
# not the log's, is in $lists and $wrong
salvaged() {
    local input name kind old new status
    lists=0 wrong=0
    for input in "$1"*.input; do
        name=${input%.input} status=0
        read -r kind old new <"$name.words"
        ./pagesorrel salvage "$kind" "$old" "$new" "$input" >"$name.written" 2>"$name.said" || status=$?
        lists=$((lists + 1))
        { cmp "$name.expected" "$name.written" && cmp "$name.log" "$name.said" && [ "$status" -eq "$(salvage_status "$name.log")" ]; } || wrong=$((wrong + 1))
    done
}

# salvage_status LOG: 2 where nothing was kept, 1 where a number was skipped, or a block dropped that isn't old, else 0
salvage_status() {
    awk '$1 == "refused" { status = 2 } $2 == "skipped" || $2 == "dropped" && $3 != "old" { status = 1 } END { print status + 0 }' "$1"
}
