# Says the header's declarations in Rust's words, for tests/header/run: FIELD(struct, field, "type"); for each field, and each
# function as Rust declares it. Stops at a type or a struct that is not in a table.
BEGIN {
    RS = ";"
    type["uint8_t"] = "u8"; type["uint32_t"] = "u32"; type["size_t"] = "usize"; type["bool"] = "bool"
    type["const uint8_t *"] = "*const u8"; type["const uint32_t *"] = "*const u32"
    type["uint8_t *"] = "*mut u8"; type["uint32_t *"] = "*mut u32"
    for (k = split(ENVIRON["structs"], name); k > 1; k -= 2) {
        type[name[k]] = name[k - 1]
        type["const " name[k] " *"] = "*const " name[k - 1]
    }
}

function stop(why) {
    print "header: " why > "/dev/stderr"
    exit 1
}

# `const uint8_t *packet` becomes `packet: *const u8`, and `uint8_t bytes[9]` becomes `bytes: [u8; 9]`.
function in_rust(declaration,    at, c, named) {
    at = match(declaration, /[A-Za-z0-9_]+(\[[0-9]+\])?$/)
    c = substr(declaration, 1, at - 1)
    sub(/ $/, "", c)
    if (!(c in type)) stop("type '" c "' of '" declaration "' is not in the table of types")
    split(substr(declaration, at), named, /[][]/)
    return named[1] ": " (named[2] ? "[" type[c] "; " named[2] "]" : type[c])
}

{
    gsub(/[ \n]+/, " ")
    gsub(/^ | $/, "")
    if (sub(/^typedef struct \{ /, "")) inside = 1
    if (inside && sub(/^\} /, "")) {
        if (!($0 in type)) stop("struct " $0 " is not in the table of structs")
        for (k = 1; k <= fields; k++) print "    FIELD(" $0 ", " field[k] "\");"
        inside = fields = 0
    } else if (inside) {
        parts = split($0, part, ", ")
        of_all = substr(part[1], 1, match(part[1], /[^ ]+$/) - 1)
        for (k = 1; k <= parts; k++) {
            field[++fields] = in_rust(k > 1 ? of_all part[k] : part[1])
            sub(/: /, ", \"", field[fields])
        }
    } else if (at = match($0, /\(.*\)$/)) {
        parts = split(substr($0, at + 1, RLENGTH - 2), part, ", ")
        split(in_rust(substr($0, 1, at - 1)), call, ": ")
        line = call[1] "(" in_rust(part[1])
        for (k = 2; k <= parts; k++) line = line ", " in_rust(part[k])
        print line ") -> " call[2]
    } else if ($0 != "") stop("'" $0 "' is neither a struct nor a function")
}
