# Runs of the program `name` where reading or writing fails, for `run`, which has what they share.

# Holds a run to one line on standard error that says which stream failed, and to an end that is no signal's and comes in time.
message() { # RUN STREAM
    local status
    status=$(cat "$room/status")
    if [ "$status" -ge 124 ]; then
        count "$1" "status $status"
    elif [ "$(wc -l <"$room/said")" -ne 1 ] || ! grep -q "^$name: $2: ." "$room/said"; then
        count "$1" "it said '$(front "$room/said")'"
    else
        count "$1" ''
    fi
}

# The same, where nothing can be read: nothing is to be written either, least of all a closing line.
nothing_read() { # RUN
    if [ -s "$room/written" ]; then
        count "$1" "it wrote '$(front "$room/written")'"
    else
        message "$1" 'standard input'
    fi
}

# Inputs that cannot be read.
no_input() {
    try <$runs
    nothing_read 'a directory as standard input'
    try <&-
    nothing_read 'standard input closed'
}

# Outputs that cannot be written.
no_output() { # INPUT
    timeout $limit "$program" <"$1" >/dev/full 2>"$room/said"
    echo $? >"$room/status"
    message "a full standard output, from $1" 'standard output'
    timeout $limit "$program" <"$1" >&- 2>"$room/said"
    echo $? >"$room/status"
    message "standard output closed, from $1" 'standard output'
}

# A pipe whose reader is gone before anything is written: its signal may end the program, and where it is ignored the write fails.
no_reader() { # INPUT
    local status
    { sleep 0.3 && exec cat "$1"; } 2>/dev/null | timeout $limit "$program" 2>"$room/said" | true
    status=${PIPESTATUS[1]}
    # 141 is that signal's
    if [ "$status" -lt 124 ] || [ "$status" -eq 141 ]; then status=''; fi
    count "a closed output pipe, from $1" "${status:+status $status}"
    (
        trap '' PIPE
        { sleep 0.3 && exec cat "$1"; } 2>/dev/null | timeout $limit "$program" 2>"$room/said" | true
        echo "${PIPESTATUS[1]}" >"$room/status"
    )
    message "a closed output pipe and no signal, from $1" 'standard output'
}

# A disk that is full in the middle of a write: no file may grow past 16 KiB.
full_disk() {
    local size stdout=crates/$name/stdout
    (
        trap '' XFSZ
        ulimit -f 16
        try <"crates/$name/stdin"
    )
    size=$(wc -c <"$room/written")
    if ! cmp -s -n "$size" "$room/written" "$stdout" || [ "$size" -ge "$(wc -c <"$stdout")" ]; then
        count 'a disk that fills up' "it wrote something else in $size bytes"
    else
        message 'a disk that fills up' 'standard output'
    fi
}

failing() {
    local input
    # the second has no end, so that only the failing write can be what ends a run; `salvage` writes nothing of it
    local inputs=("crates/$name/stdin" /dev/zero)
    [ "$name" != salvage ] || inputs=("crates/$name/stdin")
    no_input
    for input in $runs/document.in "${inputs[@]}"; do no_output "$input"; done
    for input in "${inputs[@]}"; do no_reader "$input"; done
    full_disk
}
