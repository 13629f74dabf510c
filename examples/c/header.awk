# Writes what mayketura.h must say, read from crates/exports/src/*.rt (the structs), crates/exports_c/src/*.rt (the functions) and crates/rules/specs/Answer.antt:
# each field's offset and each struct's size by the rule of #[repr(C)], each exported function's type, and the answers' numbers, as a file in C (-v to=c); or the
# structs with the first of these, in Rust (-v to=rust).
BEGIN {
    bytes["u8"] = bytes["bool"] = 1
    bytes["u16"] = 2
    bytes["u32"] = 4
    bytes["u64"] = 8
    for (type in bytes) align[type] = bytes[type]
    if (to == "c") print "#include \"mayketura.h\""
}

function up(at, step) {
    return int((at + step - 1) / step) * step
}

# FlatAsk is flat_ask
function snake(name) {
    gsub(/[A-Z]/, "_&", name)
    return tolower(substr(name, 2))
}

function in_c(type) {
    if (type == "bool") return type
    if (type ~ /^u[0-9]/) return "uint" substr(type, 2) "_t"
    return "struct mayketura_" snake(type)
}

# A slice is a pointer and a count, a lent array an array.
function passed(type, text, part) {
    if (type !~ /^&/) return in_c(type)
    text = type ~ /^&mut / ? "" : "const "
    sub(/^[^[]*\[/, "", type)
    sub(/\]$/, "", type)
    if (split(type, part, "; ") == 2) return text in_c(part[1]) " [" part[2] "]"
    return text in_c(type) " *, size_t"
}

function must(c, rust, number) {
    if (to == "c") print "static_assert(" c " == " number ", \"" name "\");"
    else print "const _: () = assert!(" rust " == " number ");"
}

function complain(text) {
    print "header: " text > "/dev/stderr"
    wrong = 1
    exit 1
}

# ---- the structs

/^#\[repr\(C\)\]/ { marked = 1; next }

marked && /^pub struct / {
    name = $3
    at = 0
    most = 1
    text = "#[repr(C)]\n"
}

marked { text = text $0 "\n" }

marked && /^    pub / {
    field = $2
    sub(/:$/, "", field)
    type = $0
    sub(/^[^:]*: */, "", type)
    sub(/,$/, "", type)
    count = 1
    if (type ~ /^\[/) {
        split(substr(type, 2, length(type) - 2), part, "; ")
        type = part[1]
        count = part[2]
    }
    if (!(type in bytes)) complain("no size of " type)
    at = up(at, align[type])
    must("offsetof(" in_c(name) ", " field ")", "core::mem::offset_of!(" name ", " field ")", at)
    at += count * bytes[type]
    if (align[type] > most) most = align[type]
}

marked && /^}/ {
    bytes[name] = up(at, most)
    align[name] = most
    must("sizeof(" in_c(name) ")", "size_of::<" name ">()", bytes[name])
    if (to == "rust") printf "%s", text
    marked = 0
    structs++
}

# ---- the functions: each is declared again, which a compiler refuses of another type; each that crate exports offers is exported

/^pub fn mayketura_/ { offered++ }

/^#\[unsafe\(no_mangle\)\]/ { exported++ }

to == "c" && /^pub extern "C" fn [a-z_]+(<'a>)?\($/ {
    called = $5
    sub(/[<(].*$/, "", called)
    list = ""
    next
}

called && /^    [a-z]+: / {
    type = $0
    sub(/^[^:]*: */, "", type)
    sub(/,$/, "", type)
    list = list (list == "" ? "" : ", ") passed(type)
}

called && /^\) -> / {
    print "static_assert(sizeof(&" called ") > 0, \"it is in the header\");"
    print in_c($3) " " called "(" list ");"
    called = ""
    functions++
}

# ---- the numbers of the answers that these functions give: none is of the owning queue, and none finds a call open

to == "c" && /^[A-Z][A-Za-z]+ = [0-9]+$/ && $1 != "OverLength" && $1 != "Busy" {
    name = $1
    must("MAYKETURA_" toupper(snake(name)), "", $3)
    numbers++
}

END {
    if (!wrong && (structs != 6 || exported != offered || (to == "c" && (functions != exported || numbers != 11)))) complain("not all structs, functions or numbers were found")
}
