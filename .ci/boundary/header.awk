# The declarations of include/cdef.h. Apart from them the header consists of its two ends, token by token: no other
# directive, since a macro or a condition can change what a declaration says.

function read_header(    first, last) {
    first = 1 + read_end(0, "#ifndef CDEF_H;#define CDEF_H;#include <stddef.h>;#include <stdint.h>;" \
        "#ifdef __cplusplus;extern;\"C\";{;#endif")
    last = tokens - 4
    read_end(last, "#ifdef __cplusplus;};#endif;#endif")
    while (first <= last)
        first = read_prototype(first, last)
}

# The tokens after the one given must be these. Returns how many they are.
function read_end(before, text,    want, many, i) {
    many = split(text, want, ";")
    for (i = 1; i <= many; i++)
        if (token[before + i] != want[i])
            cannot_read(line_of[before + i], "expected " want[i] " at the header's beginning or end, found " token[before + i])
    return many
}

# RESULT NAME(PARAMETERS); from the first token on. Returns the token after it.
function read_prototype(first, end,    open, last) {
    for (open = first; token[open] != "("; open++)
        if (open > end || token[open] ~ /^[;{}#]/)
            cannot_read(line_of[first], "what is not a function's declaration: " words(first, open))
    if (open < first + 2 || !is_name(token[open - 1]))
        cannot_read(line_of[first], "a declaration without a result or a name")
    last = read_list(open)
    if (token[last + 1] != ";")
        cannot_read(line_of[last], "a declaration that ends with " token[last + 1])
    if (items == 0)
        cannot_read(line_of[first], "() for (void)")
    if (items == 1 && words(item_from[1], item_to[1]) == "void")
        items = 0
    add_declaration(token[open - 1], line_of[first], words(first, open - 2))
    return last + 2
}
