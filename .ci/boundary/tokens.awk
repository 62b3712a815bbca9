# The tokens of the file that is read: token[1 .. tokens], and in line_of the line of each.
# A token is a word or a number, a string, a character, `->`, or one other character. In C a line that begins with `#`
# is one token. Blanks and comments are none.

function begin_tokens() {
    split("", token)
    split("", line_of)
    tokens = 0
    comment = 0 # how many comments are open, one inside the other
    quote = "" # what ends the string that is open
    opened = 0 # the line where the comment or the string begins
}

function end_tokens() {
    if (comment || quote != "")
        cannot_read(opened, "a " (comment ? "comment" : "string") " that does not end")
}

function read_line(text) {
    rest = text
    if (language == "C" && text ~ /\\\r?$/)
        cannot_read(FNR, "a line that goes on in the next one")
    if (language == "C" && !comment && text ~ /^[ \t]*#/)
        take_directive()
    while (rest != "") {
        if (comment)
            leave_comment()
        else if (quote != "")
            leave_string()
        else
            next_token()
    }
}

# Leaves out the first so many characters of the rest of the line.
function pass(many) {
    rest = substr(rest, many + 1)
}

# Makes them a token.
function take(many) {
    keep(substr(rest, 1, many))
    pass(many)
}

function keep(text) {
    token[++tokens] = text
    line_of[tokens] = FNR
}

function take_directive() {
    gsub(/[ \t\r]+/, " ", rest)
    gsub(/^ | $/, "", rest)
    take(length(rest))
}

function next_token() {
    if (match(rest, /^[ \t\r]+/))
        pass(RLENGTH)
    else if (rest ~ /^\/\//)
        rest = ""
    else if (rest ~ /^\/\*/)
        open_comment()
    else if (language == "Rust" && match(rest, /^[bc]?r#*"/))
        open_string(RLENGTH, 1)
    else if (match(rest, /^"([^"\\]|\\.)*"/))
        take(RLENGTH)
    else if (rest ~ /^"/)
        open_string(1, 0)
    else if (match(rest, /^'\\.[^']*'/) || match(rest, /^'[^'\\]'/) || match(rest, /^'[^ -~]+'/))
        take(RLENGTH)
    else if (match(rest, /^[A-Za-z0-9_]+/) || match(rest, /^->/))
        take(RLENGTH)
    else
        take(1)
}

function open_comment() {
    comment = 1
    opened = FNR
    pass(2)
}

# Comments nest in Rust and Rattle, and do not in C.
function leave_comment(    from) {
    if (language == "C")
        from = index(rest, "*/")
    else
        from = match(rest, /\/\*|\*\//)
    if (!from) {
        rest = ""
        return
    }
    comment += substr(rest, from, 1) == "/" ? 1 : -1
    pass(from + 1)
}

# A string that goes on in the next line, or a raw one; its text is not kept.
function open_string(many, is_raw) {
    quote = substr(rest, 1, many)
    gsub(/[^#]/, "", quote)
    quote = "\"" quote
    raw = is_raw
    opened = FNR
    keep("\"\"")
    pass(many)
}

function leave_string(    past) {
    if (raw)
        past = index(rest, quote) ? index(rest, quote) + length(quote) - 1 : 0
    else
        past = match(rest, /^([^"\\]|\\.)*"/) ? RLENGTH : 0
    if (!past) {
        rest = ""
        return
    }
    pass(past)
    quote = ""
}

# ---- what the readers of all three languages use

# Tokens as text: a blank between two words, none elsewhere.
function words(from, to,    text, i) {
    for (i = from; i <= to; i++) {
        if (text ~ /[A-Za-z0-9_]$/ && token[i] ~ /^[A-Za-z0-9_]/)
            text = text " "
        text = text token[i]
    }
    return text
}

function is_name(text) {
    return text ~ /^[A-Za-z_][A-Za-z0-9_]*$/
}

# Reads a list in brackets, `(` being the token given: its items are item_from[k] to item_to[k] for k in 1 .. items.
# Returns the token `)`.
function read_list(open,    i, depth, from) {
    items = 0
    from = open + 1
    for (i = from; i <= tokens; i++) {
        if (index("([{", token[i]))
            depth++
        else if (index(")]}", token[i]) && depth-- == 0)
            return end_list(from, i)
        else if (token[i] == "," && depth == 0) {
            add_item(from, i - 1)
            from = i + 1
        }
    }
    cannot_read(line_of[open], "a list that does not end")
}

# Rust and Rattle allow a comma after the last item.
function end_list(from, last) {
    if (token[last] != ")")
        cannot_read(line_of[last], "a list that ends with " token[last])
    if (from < last || (items && language == "C"))
        add_item(from, last - 1)
    return last
}

function add_item(from, to) {
    if (from > to)
        cannot_read(line_of[from], "an empty parameter")
    item_from[++items] = from
    item_to[items] = to
}
