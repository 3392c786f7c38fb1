# Reads `objdump -dr` of a library: of each function the bytes of stack that its own frame takes, those that it takes with all that it
# calls, and the copies that it makes by memcpy, with their sizes where they are constants. A function that calls itself is marked, and
# counted once: how often it does is not in the code.
/^[0-9a-f]+ <.*>:$/ {
    name = $0
    sub(/^[0-9a-f]+ </, "", name)
    sub(/>:$/, "", name)
    names[++count] = name
    frame[name] = 8
    size = ""
    entry = 1
    next
}
name == "" { next }
entry && /\tpush / { frame[name] += 8 }
entry && /\tsub .*,%rsp/ {
    match($0, /\$0x[0-9a-f]+/)
    frame[name] += hexadecimal(substr($0, RSTART + 3, RLENGTH - 3))
    entry = 0
    piece = NR
}
# A large frame is taken piece by piece, with a store behind each but the last, so that no guard page is passed over.
/\tmovq +\$0x0,\(%rsp\)/ && NR == piece + 1 { entry = 1 }
/\tcall / && index($0, "<" name ">") { itself[name] = "calls itself " }
/,%[er]dx$/ { size = "" }
/\tmov .*\$0x[0-9a-f]+,%edx/ {
    match($0, /\$0x[0-9a-f]+/)
    size = hexadecimal(substr($0, RSTART + 3, RLENGTH - 3))
}
/R_X86_64_(PLT32|PC32)/ {
    callee = $NF
    sub(/-0x[0-9a-f]+$/, "", callee)
    sub(/^\.text\./, "", callee)
    if (callee == "memcpy" || callee == "memmove") {
        copies[name] = copies[name] (copies[name] == "" ? "" : " ") (size == "" ? "?" : size)
        size = ""
    } else if (callee !~ /^\.rodata/ && callee != "memset" && callee != name)
        calls[name] = calls[name] SUBSEP callee
}
function hexadecimal(digits,    i, value) {
    for (i = 1; i <= length(digits); i++)
        value = 16 * value + index("0123456789abcdef", substr(digits, i, 1)) - 1
    return value
}
function deep(f,    parts, n, i, most, d) {
    if (f in known) return known[f]
    n = split(calls[f], parts, SUBSEP)
    most = 0
    for (i = 1; i <= n; i++)
        if (parts[i] in frame) {
            d = deep(parts[i])
            if (d > most) most = d
        }
    return known[f] = frame[f] + most
}
END {
    printf "%-34s %8s %12s   %s\n", "function", "stack", "with calls", "bytes copied"
    for (i = 1; i <= count; i++)
        printf "%-34s %8d %12d   %s\n", names[i], frame[names[i]], deep(names[i]), itself[names[i]] copies[names[i]]
}
