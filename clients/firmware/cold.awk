# A module in which all code is made for size but that which ticks can reach, and calls that are no
# ticks stay functions of their own: a float's flash is spent where its battery is. The module comes
# twice: the first time it is read for who calls whom, the second time it is printed. `roots` and
# `alone` match the names of calls. It ends with 1 where no call matches one of them.

# the name before a parenthesis, from the first @ on; rest is what comes after it
function name_in(text,    found) {
    if (!match(text, /@("[^"]+"|[A-Za-z_][A-Za-z0-9_.]*)\(/))
        return ""
    found = substr(text, RSTART + 1, RLENGTH - 2)
    rest = substr(text, RSTART + RLENGTH)
    gsub(/"/, "", found)
    return found
}

# all that the functions in the list call, and what those call
function reach(    i, j, n, called) {
    for (i = 1; i <= length_of_list; i++) {
        n = split(calls[list[i]], called, "\n")
        for (j = 1; j <= n; j++)
            add(called[j])
    }
}

function add(name) {
    if (name != "" && !(name in hot)) {
        hot[name]
        list[++length_of_list] = name
    }
}

FNR == 1 {
    pass++
    if (pass == 2) {
        reach()
        if (!length_of_list || !kept_alone) {
            print "cold.awk: the module has no call that matches " (kept_alone ? roots : alone) > "/dev/stderr"
            failed = 1
            exit
        }
    }
}

pass == 1 && /^define / {
    current = name_in($0)
    if (current ~ roots)
        add(current)
    if (current ~ alone)
        kept_alone++
    next
}

pass == 1 {
    rest = $0
    while ((callee = name_in(rest)) != "")
        calls[current] = calls[current] callee "\n"
    next
}

/^define (internal|hidden) / {
    current = name_in($0)
    if (!(current in hot))
        sub(/ #[0-9]+ \{$/, (current ~ alone ? " noinline" : "") " optsize&")
}

{ print }

END { exit failed }
