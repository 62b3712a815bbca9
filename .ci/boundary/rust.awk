# The declarations of a Rust file, which are the functions in its blocks `extern "C" { .. }`. A block that is linked with
# cdef_c declares entries; in any other one the names that begin with quern_ are entries, the rest are the C library's.

function read_rust(    i) {
    for (i = 1; i <= tokens; i++)
        if (token[i] == "extern")
            i = read_extern(i)
}

# Returns the last token that was read.
function read_extern(i) {
    if (token[i + 1] == "crate")
        return i
    if (token[i + 1] != "\"C\"")
        cannot_read(line_of[i], "extern without \"C\"")
    if (token[i + 2] == "{")
        return read_block(i)
    if (token[i + 2] != "fn")
        cannot_read(line_of[i], "extern \"C\" before " token[i + 2])
    if (token[i + 3] ~ /^quern_/)
        different(file ":" line_of[i], token[i + 3], "defined here; crate cdef_c alone defines entries")
    return i + 2
}

function read_block(i,    linked) {
    linked = is_linked(token[i - 1] == "unsafe" ? i - 2 : i - 1)
    for (i += 3; token[i] != "}";)
        i = read_foreign(i, linked)
    return i
}

# Whether the block after that token is linked with cdef_c. It has no attribute or one, #[link(..)].
function is_linked(last,    from, attribute) {
    if (token[last] != "]")
        return 0
    for (from = last; from > 1 && token[from] != "#";)
        from--
    attribute = words(from, last)
    if (attribute !~ /^#\[link\(/ || token[from - 1] == "]")
        cannot_read(line_of[from], "an attribute of extern \"C\" that is not #[link(..)] alone")
    return attribute ~ /^#\[link\(name="cdef_c"[,)]/
}

# [pub] [safe | unsafe] fn NAME(PARAMETERS) [-> RESULT]; from the first token on. Returns the token after it.
function read_foreign(i, linked,    line, name, last, result) {
    line = line_of[i]
    if (token[i] == "pub")
        i++
    if (token[i] == "safe" || token[i] == "unsafe")
        i++
    name = token[i + 1]
    if (token[i] != "fn" || !is_name(name) || token[i + 2] != "(")
        cannot_read(line, "in extern \"C\" what is not fn NAME(")
    last = read_list(i + 2)
    result = last + 1
    for (i = result; i <= tokens && token[i] != ";"; i++)
        if (token[i] == "fn" && token[i + 1] != "(")
            cannot_read(line, "a declaration without ;")
    if (i > result && token[result] != "->")
        cannot_read(line, "a declaration that goes on with " token[result])
    if (linked || name ~ /^quern_/)
        add_declaration(name, line, i > result ? words(result + 1, i - 1) : "()")
    return i + 1
}
