# The entries as crate cdef_c defines them. Of entry e: entry_name[e], entry_place[e] (FILE:LINE), entry_result[e], and its
# parameters as C passes them, wanted_name[e, k] and wanted_type[e, k] for k in 1 .. wanted[e]. Types are written as in Rust.

BEGIN {
    # The types of numbers, in C.
    split("u8 uint8_t u16 uint16_t u32 uint32_t u64 uint64_t i8 int8_t i16 int16_t i32 int32_t i64 int64_t " \
        "usize size_t f32 float f64 double", pair, " ")
    for (i = 1; i in pair; i += 2)
        c_type[pair[i]] = pair[i + 1]
}

function read_source(    i) {
    for (i = 1; i <= tokens; i++) {
        if (token[i] == "no_mangle" && words(i - 4, i + 4) != "#[unsafe(no_mangle)]pub extern")
            cannot_read(line_of[i], "no_mangle that is not #[unsafe(no_mangle)] before pub extern")
        if (token[i] == "extern")
            read_entry(i)
    }
}

# An entry, from its word extern on.
function read_entry(i,    name, last, k) {
    name = token[i + 3]
    if (token[i + 1] != "\"C\"" || token[i + 2] != "fn" || !is_name(name) || token[i + 4] != "(")
        cannot_read(line_of[i], "extern that is not extern \"C\" fn NAME(")
    add_entry(name, file ":" line_of[i])
    if (words(i - 8, i) != "#[unsafe(no_mangle)]pub extern")
        different(file ":" line_of[i], name, "expected #[unsafe(no_mangle)] pub before extern \"C\", found none")
    last = read_list(i + 4)
    for (k = 1; k <= items; k++)
        read_parameter(item_from[k], item_to[k])
    read_result(last + 1)
}

function add_entry(name, place) {
    entry_name[++entries] = name
    entry_place[entries] = place
    if (name in entry_of)
        different(place, name, "defined a second time, first in " entry_place[entry_of[name]])
    else
        entry_of[name] = entries
    if (name !~ /^quern_/)
        different(place, name, "expected a name that begins with quern_")
}

# NAME: TYPE as one parameter or two.
function read_parameter(from, to,    name, type) {
    name = token[from]
    type = words(from + 2, to)
    if (!is_name(name) || token[from + 1] != ":")
        cannot_read(line_of[from], "a parameter that is not NAME: TYPE")
    if (type in c_type)
        add_wanted(name, type)
    else if (type ~ /^&mut [a-z0-9]+$/)
        add_pointer(from, name, "*mut ", substr(type, 6))
    else if (type ~ /^&mut\[[a-z0-9]+\]$/)
        add_slice(from, name, "*mut ", substr(type, 6, length(type) - 6))
    else if (type ~ /^&\[[a-z0-9]+\]$/)
        add_slice(from, name, "*const ", substr(type, 3, length(type) - 3))
    else
        cannot_read(line_of[from], "the type " type " of " name)
}

function add_pointer(from, name, kind, element) {
    if (!(element in c_type))
        cannot_read(line_of[from], "the type " element " of what " name " borrows")
    add_wanted(name, kind element)
}

function add_slice(from, name, kind, element) {
    add_pointer(from, name, kind, element)
    add_wanted(name "_len", "usize")
}

function add_wanted(name, type) {
    wanted[entries]++
    wanted_name[entries, wanted[entries]] = name
    wanted_type[entries, wanted[entries]] = type
}

# What stands between the parameters and the contract or the body: a number's type, or nothing, written ().
function read_result(i) {
    entry_result[entries] = "()"
    if (token[i] == "->") {
        entry_result[entries] = token[i + 1]
        if (!(token[i + 1] in c_type))
            cannot_read(line_of[i], "a result that is not a number")
        i += 2
    }
    if (token[i] != "requires" && token[i] != "ensures" && token[i] != "{")
        cannot_read(line_of[i], "a signature that ends with " token[i])
}
