# Reads the files of check-boundary one after the other, each by its role, and compares at the end.

FNR == 1 {
    end_file()
    begin_file()
}

{ read_line($0) }

END {
    if (unreadable)
        exit 2
    end_file()
    exit (compare() ? 1 : 0)
}

function begin_file() {
    file = FILENAME
    sub(/^\.\//, "", file)
    file_role = role
    language = role == "source" ? "Rattle" : role == "header" ? "C" : "Rust"
    begin_tokens()
}

# The file whose tokens are all there is read by its role.
function end_file() {
    if (file == "")
        return
    end_tokens()
    if (language == "Rattle")
        read_source()
    else if (language == "C")
        read_header()
    else
        read_rust()
}

# Ends the run: what is not understood is never passed over. Past the last token the line is that token's.
function cannot_read(line, what) {
    print file ":" (line ? line : line_of[tokens]) ": cannot read: " what
    unreadable = 1
    exit 2
}

# Reports a difference; place is FILE:LINE.
function different(place, entry, what) {
    print place ": " entry ": " what
    differences++
}
