# From assembly with unwind tables: how much stack the function `made` takes, and by which chain of functions, in a row for `shown`. `avoided` is a
# function that is never called on the way. A function's part in a chain is its return address, its frame, and what it pushes for the call of the
# next; the last one's is the most that it ever takes.
function stop(why) {
    print "stack: " why > "/dev/stderr"
    exit 1
}

function bare(word) {
    gsub(/"|,$|@PLT$/, "", word)
    return word
}

function note_call(to, depth) {
    if (to ~ /^\*/) {
        computed[here] = 1
        return
    }
    callee[here, ++callees[here]] = bare(to)
    part[here, callees[here]] = depth
}

/^[A-Za-z_"].*:/ {
    label = $1
    sub(/:$/, "", label)
}
/^\t\.cfi_startproc/ {
    here = bare(label)
    depth = most[here] = 8
}
/^\t\.cfi_endproc/ { here = "" }
/^\t\.cfi_def_cfa_offset/ { depth = $2 + 0 }
/^\t\.cfi_adjust_cfa_offset/ { depth += $2 }
/^\t\.cfi_remember_state/ { remembered[++states] = depth }
/^\t\.cfi_restore_state/ { depth = remembered[states--] }
/^\t\.cfi_def_cfa(_register)?[ \t]/ { unfixed[here] = 1 }
/^\t\.cfi_/ && depth > most[here] { most[here] = depth }
/^\t?\.set[ \t]/ { other_name[bare($2)] = bare($3) }
/^\tcall/ {
    note_call($2, depth)
    returned_to[here] = 1
}

# A jump to another function is a call whose return address is the caller's own. One by a table of places stays in the function.
/^\tj/ && $2 !~ /^\.L/ && ($2 !~ /^\*/ || /TAILCALL/) { note_call($2, depth - 8) }

# A function that calls none may use 128 bytes below the stack pointer.
/^\t[a-z].*-[0-9]+\(%rsp/ {
    match($0, /-[0-9]+\(%rsp/)
    below = substr($0, RSTART + 1, RLENGTH - 6) + 0
    if (below <= 128 && depth + below > lowest[here]) lowest[here] = depth + below
}

# Those of the C library's functions that the compiler calls by itself count with their return address alone.
function walk(name,    next_one, sum, i) {
    while (name in other_name) name = other_name[name]
    if (name in total) return name
    if (name in walking) stop(name " calls itself")
    if (name in computed) stop(name " calls a function whose address is computed")
    if (name in unfixed) stop(name " has a frame of no fixed size")
    if (name ~ /^(memcpy|memmove|memset|memcmp|bcmp)$/) most[name] = 8
    if (!(name in most)) stop("the stack of " name " is not known")
    walking[name] = 1
    sum = most[name]
    if (!(name in returned_to) && lowest[name] > sum) sum = lowest[name]
    chain[name] = name " " sum
    for (i = 1; i <= callees[name]; i++) {
        if (callee[name, i] == avoided) continue
        next_one = walk(callee[name, i])
        if (part[name, i] + total[next_one] <= sum) continue
        sum = part[name, i] + total[next_one]
        chain[name] = name " " part[name, i] ", " chain[next_one]
    }
    total[name] = sum
    delete walking[name]
    return name
}

END {
    name = walk(made)
    printf "%-18s %5d  %s\n", shown, total[name], chain[name]
}
