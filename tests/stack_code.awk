# The intermediate code of a module in which the functions `calls` are kept functions of their own, and are called, with values that nothing is
# known of, so that nothing is folded away. `apart` is one more that is kept. With `kind` tables every function gets an unwind table. A function
# that is not there is an error.
BEGIN {
    count = split(calls, listed, " ")
    for (i = 1; i <= count; i++) public[listed[i]] = 1
}

function stop(why) {
    print "stack: " why > "/dev/stderr"
    failed = 1
    exit 1
}

# A call with a fresh pointer for each parameter, or with a number from behind one.
function add_call(name, line,    params, words, given, i, n) {
    match(line, /\(.*\)/)
    n = split(substr(line, RSTART + 1, RLENGTH - 2), params, ", ")
    for (i = 1; i <= n; i++) {
        if (params[i] !~ /^(ptr|i[0-9]+)( noundef)? %[a-z0-9]+$/) stop(name " takes what is no pointer and no number: " params[i])
        split(params[i], words, " ")
        body = body "  %p" ++fresh " = call ptr @anything()\n"
        if (words[1] != "ptr") body = body "  %v" fresh " = load " words[1] ", ptr %p" fresh "\n"
        given = given (i > 1 ? ", " : "") words[1] (words[1] == "ptr" ? " %p" : " %v") fresh
    }
    n = split(substr(line, 1, index(line, " @") - 1), words, " ")
    body = body "  call " words[n] " @\"" name "\"(" given ")\n"
}

/^define / {
    name = $0
    sub(/^[^@]*@/, "", name)
    sub(/\(.*/, "", name)
    gsub(/"/, "", name)
    if (name in public) {
        found[name] = 1
        add_call(name, $0)
        attributes = $(NF - 1)
    }
    if (name == apart) found[name] = 1
    if (name in public || name == apart) sub(/ #[0-9]+ \{$/, " noinline&")
    if (kind == "tables") sub(/ #[0-9]+ \{$/, " uwtable&")
}

{ print }

END {
    if (failed) exit 1
    for (i = 1; i <= count; i++) if (!(listed[i] in found)) stop("there is no function " listed[i])
    if (apart != "" && !(apart in found)) stop("there is no function " apart)
    print "declare ptr @anything()\n\ndefine void @every_call() " attributes " {\n" body "  ret void\n}"
}
