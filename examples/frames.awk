# Reads `objdump -dr --no-show-raw-insn` of an archive and prints for each
# function that it exports the most stack that a call can take, whatever its
# arguments: its own frame and the deepest frames below it, return addresses
# and the bytes used below the stack pointer among them. Of a function that is
# not in the archive (memcpy, memset) the return address alone is counted. What it does
# not understand ends it.

function fail(why) {
    print "frames: " name ": " why > "/dev/stderr"
    failed = 1
    exit 1
}

# The number $0x... at the front of a text; one of 16 digits is negative.
function immediate(text,    digits, value, i) {
    match(text, /^\$0x[0-9a-f]+/)
    digits = substr(text, 4, RLENGTH - 3)
    for (i = length(digits) > 8 ? 9 : 1; i <= length(digits); i++)
        value = 16 * value + index("0123456789abcdef", substr(digits, i, 1)) - 1
    return length(digits) == 16 ? value - 4294967296 : value
}

function most(of,    called, count, i, deepest, depth) {
    if (!(of in frame))
        return 8
    if (of in walking)
        fail("calls itself")
    walking[of]
    count = split(calls[of], called, "\n")
    deepest = below[of]
    for (i = 1; i <= count; i++) {
        depth = most(called[i])
        if (depth > deepest)
            deepest = depth
    }
    delete walking[of]
    return frame[of] + deepest
}

/^[0-9a-f]+ <.*>:$/ {
    name = substr($0, index($0, "<") + 1)
    name = substr(name, 1, length(name) - 2)
    frame[name] = 8
    next
}

# A call or a jump to another function has a relocation on the next line.
$2 ~ /^R_X86_64_/ {
    target = $3
    sub(/[-+]0x[0-9a-f]+$/, "", target)
    sub(/^\.text\./, "", target)
    if (target !~ /^\.rodata/)
        calls[name] = calls[name] (calls[name] == "" ? "" : "\n") target
    called = 0
    next
}

called { fail("a call of an unknown function") }
$2 ~ /^call/ { called = 1; next }
$2 ~ /^push/ { frame[name] += 8; next }
$2 ~ /^(sub|add)$/ && $3 ~ /^\$0x[0-9a-f]+,%rsp$/ {
    change = $2 == "sub" ? immediate($3) : -immediate($3)
    if (change > 0)
        frame[name] += change
    next
}
$NF ~ /,%rsp$/ { fail("the stack pointer is set by " $0) }

# The bytes below the stack pointer that a function without calls may use.
match($0, /-0x[0-9a-f]+\(%rsp/) {
    used = immediate("$" substr($0, RSTART + 1, RLENGTH - 6))
    if (used > below[name])
        below[name] = used
}

END {
    if (failed)
        exit 1
    for (name in frame)
        if (name ~ /^boardtime_/)
            print name, most(name)
}
