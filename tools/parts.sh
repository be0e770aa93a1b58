# What .ci/run, examples/run and conformance/run share: how a part is run, told of and counted. They source it after they have set
# `program`, their name in messages, and `parts`, the names that --without takes.
passed=0
failed=0
lacked=0
omitted=()
logs=

# at_end COMMAND: what the program does when it ends. A background process that is killed before it has begun would do it too.
at_end() {
    trap "if [ \$BASHPID = $$ ]; then $1; fi" EXIT
}

# stop TEXT: ends with 2, since nothing can be run as asked
stop() {
    echo "$program: $1" >&2
    exit 2
}

# needs TOOL..: ends where a program lacks that every part needs
needs() {
    local tool
    for tool in "$@"; do
        command -v "$tool" > /dev/null || stop "there is no $tool"
    done
}

# leave_out PART: takes the word after --without
leave_out() {
    [[ -n $1 && " $parts " == *" $1 "* ]] || stop "--without takes one of: $parts"
    omitted+=("$1")
}

is_left_out() {
    [[ " ${omitted[*]} " == *" $1 "* ]]
}

# lacking PART WHAT: a part that can't be run has failed, unless it is left out
lacking() {
    is_left_out "$1" && return
    echo "${program%/run} $1: FAILED, since there is no $2; --without $1 leaves it out"
    failed=$((failed + 1))
    lacked=$((lacked + 1))
}

# can_run PART TOOL..: whether a part is wanted and its tools are there; says which one lacks
can_run() {
    local part=$1 tool
    shift
    is_left_out "$part" && return 1
    for tool in "$@"; do
        command -v "$tool" > /dev/null || { lacking "$part" "$tool"; return 1; }
    done
}

# watched NAME COMMAND..: runs a command with its output in the file $log, and says every ten seconds that it still runs
watched() {
    local name=$1 start=$SECONDS
    shift
    logs=${logs:-$(mktemp -d)}
    log=$logs/${name//[ \/]/-}
    while sleep 10 > /dev/null 2>&1; do
        echo ".. ${program%/run} $name, $((SECONDS - start)) s: $(tail -n 1 "$log" | cut -c 1-100) (log: $log)" >&2
    done &
    local beat=$! status=0
    "$@" > "$log" 2>&1 || status=$?
    kill $beat 2> /dev/null
    wait $beat 2> /dev/null
    return $status
}

# tried NAME COMMAND..: runs a command, and counts it; prints its last line, or all that it printed where it failed
tried() {
    local name=$1 start=$SECONDS
    shift
    if watched "$name" "$@"; then
        echo "${program%/run} $name: $(tail -n 1 "$log"), $((SECONDS - start)) s"
        passed=$((passed + 1))
    else
        echo "${program%/run} $name: FAILED"
        cat "$log"
        failed=$((failed + 1))
        return 1
    fi
}

# ended: the last line, and the status of the program: 2 where nothing was run
ended() {
    [ -z "$logs" ] || rm -rf "$logs"
    echo "$passed passed, $failed failed${omitted[*]:+; left out: ${omitted[*]}}"
    [ $((passed + failed)) -gt "$lacked" ] || stop 'nothing was run'
    [ "$failed" -eq 0 ]
}
