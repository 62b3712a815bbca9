# The declarations, and their comparison with the entries. Of declaration d: said_name[d], said_file[d], said_line[d],
# said_role[d], said_language[d], said_result[d], and its parameters as text, said_text[d, k] for k in 1 .. said[d].

BEGIN {
    # Names that the Rust declarations spell out, and keep: beside/bench-against pairs the parameters of two commits by name.
    spelled["bw"] = "block_width"
    spelled["bh"] = "block_height"
    spelled["orig"] = "original"
    spelled["orig_len"] = "original_len"
}

# A declaration whose parameters are the items of the list read last.
function add_declaration(name, line, result,    d, k) {
    d = ++declarations
    count[language]++
    said_name[d] = name
    said_file[d] = file
    said_line[d] = line
    said_role[d] = file_role
    said_language[d] = language
    said_result[d] = result
    said[d] = items
    for (k = 1; k <= items; k++) {
        said_text[d, k] = words(item_from[k], item_to[k])
        said_at[d, k] = line_of[item_from[k]]
    }
}

# Prints the differences and a line with the numbers. Returns whether there are any.
function compare(    d, e) {
    if (!entries || !declarations) {
        print "check-boundary: no entry or no declaration was found"
        exit 2
    }
    for (d = 1; d <= declarations; d++)
        compare_declaration(d)
    for (e = 1; e <= entries; e++) {
        expect_declared(e, "header", "include/cdef.h")
        expect_declared(e, "complete", "beside/src/ours")
    }
    print "check-boundary: " entries " entries, " count["C"] + 0 " C declarations, " count["Rust"] + 0 \
        " Rust declarations, " differences + 0 " different"
    return differences > 0
}

# An entry is declared in each of these two sets.
function expect_declared(e, set, place) {
    if (!((set, entry_name[e]) in first_place))
        different(place, entry_name[e], "expected a declaration, found none; it is defined in " entry_place[e])
}

function compare_declaration(d,    name, place, set) {
    name = said_name[d]
    place = said_file[d] ":" said_line[d]
    set = said_role[d] SUBSEP name
    if (said_role[d] != "other" && set in first_place)
        different(place, name, "declared a second time, first in " first_place[set])
    else
        first_place[set] = place
    if (name in entry_of)
        compare_signature(d, entry_of[name], place)
    else
        different(place, name, "declared, but crate cdef_c does not define it")
}

# Where the numbers of parameters differ, only the first different one is reported with them.
function compare_signature(d, e, place,    result, k, many) {
    result = result_text(said_language[d], entry_result[e])
    if (said_result[d] != result)
        different(place, said_name[d], "result: expected " result ", found " said_result[d])
    if (said[d] != wanted[e] + 0)
        different(place, said_name[d], "expected " wanted[e] + 0 " parameters, found " said[d])
    many = said[d] > wanted[e] ? said[d] : wanted[e]
    for (k = 1; k <= many; k++)
        if (!same_parameter(d, e, k) && said[d] != wanted[e])
            return
}

function same_parameter(d, e, k,    want, found, place) {
    want = k <= wanted[e] ? parameter_text(said_language[d], wanted_name[e, k], wanted_type[e, k]) : "nothing"
    found = k <= said[d] ? said_text[d, k] : "nothing"
    if (found == want)
        return 1
    place = said_file[d] ":" (k <= said[d] ? said_at[d, k] : said_line[d])
    different(place, said_name[d], "parameter " k ": expected " spaced(d, want) ", found " spaced(d, found))
    return 0
}

function result_text(to, type) {
    if (to == "C")
        return type == "()" ? "void" : c_type[type]
    return type
}

# A parameter as a declaration in that language has it, with blanks between words alone.
function parameter_text(to, name, type) {
    if (to == "Rust")
        return (name in spelled ? spelled[name] : name) ":" type
    if (sub(/^\*const /, "", type))
        return "const " c_type[type] "*" name
    if (sub(/^\*mut /, "", type))
        return c_type[type] "*" name
    return c_type[type] " " name
}

# The same as it is usually written.
function spaced(d, text) {
    if (said_language[d] == "C")
        sub(/\*/, " *", text)
    else
        sub(/:/, ": ", text)
    return text
}
