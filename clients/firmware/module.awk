# The sizes of what crosses the calls of the module of a library (-v library=NAME), read off its
# text: a line of C for each argument that at.c gives by a pointer, where argument 0 of a call with a
# result is the result; and the distance from card to card of a row, where it has one. Each call
# must read such an argument by one copy and nothing else, and write its result by one copy at its
# end. Then a call changes nothing that it is given, and the result may lie anywhere. A call whose
# name ends in _in changes its argument 1, a card, where it is. A slice is two arguments of the
# module, its start and its length, and a result of a byte and a length comes in registers; for at.c
# each of them is one argument of 16 bytes (inner.awk). It ends with 1, and says why, where the module
# is another.

function fault(text) {
    print "module: " name ": " text > "/dev/stderr"
    failed = 1
}

$0 ~ "^define .*@" library "_inner_[a-z_]+\\(" {
    match($0, /_inner_[a-z_]+/)
    name = library substr($0, RSTART + 6, RLENGTH - 6)
    calls++
    inside = 1
    # how many arguments of the module the arguments so far of at.c are more
    more = 0
    lengths = ""
    if (/^define hidden noundef \{ i8, i64 \} /) {
        more = -1
        print "#define MODULE_" name "_0 16"
    } else if (/^define hidden (noundef )?\{/)
        fault("a result is given in registers that inner.awk does not know")
    next
}

/^define .*@"rack::row::/ {
    row = 1
}

/^}/ {
    row = 0
}

row && /mul (nuw )?i64 %[a-z0-9]+, [0-9]+$/ {
    if (step && step != $NF)
        fault("a row has two steps:" $0)
    step = $NF
}

inside && /^}/ {
    inside = 0
    next
}

# a card that is changed where it is
inside && name ~ /_in$/ && /%a1/ {
    if ($0 ~ /memmove/) {
        match($0, /i64 [0-9]+, i1/)
        size = substr($0, RSTART + 4, RLENGTH - 8)
        if (size > largest[name])
            largest[name] = size
    }
    next
}

# a slice, whose length is the next argument; arguments are read in their order
inside && /^  store ptr %a[0-9]+, ptr %r[0-9]+, align 8$/ {
    match($0, /%a[0-9]+/)
    argument = substr($0, RSTART + 2, RLENGTH - 2)
    if ((name, "slice", argument) in seen)
        fault("slice " argument " is taken twice")
    seen[name, "slice", argument]
    print "#define MODULE_" name "_" (argument - more) " 16"
    lengths = lengths " " (argument + 1) " "
    more++
    next
}

inside && /^  store i64 %a[0-9]+, ptr %r[0-9]+, align 8$/ {
    match($0, /%a[0-9]+/)
    if (index(lengths, " " substr($0, RSTART + 2, RLENGTH - 2) " "))
        next
}

inside && /%a[0-9]/ {
    if ($0 ~ /^  call void @llvm\.memmove\.p0\.p0\.i64\(ptr %r[0-9]+, ptr %a[0-9]+, i64 [0-9]+, i1 false\)$/ ||
        $0 ~ /^  call void @llvm\.memmove\.p0\.p0\.i64\(ptr %a0, ptr %r[0-9]+, i64 [0-9]+, i1 false\)$/) {
        match($0, /%a[0-9]+/)
        argument = substr($0, RSTART + 2, RLENGTH - 2)
        match($0, /i64 [0-9]+, i1/)
        size = substr($0, RSTART + 4, RLENGTH - 8)
        if ((name, argument) in seen && (argument != 0 || seen[name, argument] != size))
            fault("argument " argument " is copied twice")
        written = ($0 ~ /ptr %a0, ptr %r/)
        if (!((name, argument) in seen))
            print "#define MODULE_" name "_" (written ? 0 : argument - more) " " size
        seen[name, argument] = size
        next
    }
    if ($0 ~ /ptr %a/)
        fault("an argument is used, and not by a copy:" $0)
}

inside && written && !/%a0/ && !/^  ret / {
    fault("something follows the result:" $0)
}

inside && /^  ret / {
    written = 0
}

END {
    for (name in largest)
        print "#define MODULE_" name "_1 " largest[name]
    if (step)
        print "#define MODULE_" library "_row_step " step
    if (!calls) {
        name = "all"
        fault("no call found")
    }
    exit failed
}
