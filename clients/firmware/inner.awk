# The functions of a module (-v library=NAME) as at.c and rack_at.c declare them: a slice is given by
# a pointer to its start and its length, and a result of a byte and a length is written where a
# pointer says. The module itself gives and takes these two in registers. The module comes twice: the
# first time it is read for which arguments are slices, the second time it is printed, each function
# that needs it under the name library_module_CALL, and after it one of the declared form.

FNR == 1 {
    pass++
}

/^define / {
    name = ""
}

$0 ~ "^define hidden .*@" library "_inner_[a-z_]+\\(" {
    match($0, /_inner_[a-z_]+/)
    name = substr($0, RSTART + 7, RLENGTH - 7)
}

pass == 1 && name != "" && /^  store ptr %a[0-9]+, ptr %r[0-9]+,/ {
    match($0, /%a[0-9]+/)
    slices[name, substr($0, RSTART + 2, RLENGTH - 2) + 0]
    adapted[name]
}

pass == 1 && name != "" && /^define hidden noundef \{ i8, i64 \} / {
    adapted[name]
}

pass == 2 && /^define / && name in adapted {
    head = $0
    sub("@" library "_inner_", "@" library "_module_")
    sub(/^define hidden /, "define internal ")
}

# the calls by value call it as it is
pass == 2 && !/^define / && match($0, "@" library "_inner_[a-z_]+\\(") {
    called = substr($0, RSTART + length(library) + 8, RLENGTH - length(library) - 9)
    if (called in adapted)
        sub("@" library "_inner_", "@" library "_module_")
}

pass == 2

pass == 2 && /^}/ && name in adapted {
    adapt(head)
    name = ""
}

# what is printed for one function, whose first line it is given
function adapt(head,    i, n, words, pair, list, given, lines, type, kind, ending) {
    pair = head ~ /^define hidden noundef \{ i8, i64 \} /
    type = head
    sub(/^define hidden /, "", type)
    sub(/ @.*/, "", type)
    list = head
    sub(/^[^(]*\(/, "", list)
    ending = list
    sub(/^.*\)/, "", ending)
    sub(/\) #[0-9]+ \{$/, "", list)
    n = split(list, words, ", ")
    given = pair ? "ptr noundef %result" : ""
    lines = ""
    list = ""
    for (i = 0; i < n; i++) {
        kind = words[i + 1]
        sub(/ %a[0-9]+$/, "", kind)
        if ((name, i) in slices) {
            given = given (given == "" ? "" : ", ") "ptr noundef %s" i
            lines = lines "  %a" i " = load ptr, ptr %s" i ", align 8\n"
            lines = lines "  %t" i " = getelementptr i8, ptr %s" i ", i64 8\n"
            lines = lines "  %a" (i + 1) " = load i64, ptr %t" i ", align 8\n"
        } else if (!((name, i - 1) in slices))
            given = given (given == "" ? "" : ", ") words[i + 1]
        list = list (list == "" ? "" : ", ") kind " %a" i
    }
    print ""
    print "define hidden " (pair ? "void" : type) " @" library "_inner_" name "(" given ")" ending
    printf "%s", lines
    if (pair) {
        print "  %v = call { i8, i64 } @" library "_module_" name "(" list ")"
        print "  %k = extractvalue { i8, i64 } %v, 0"
        print "  store i8 %k, ptr %result, align 8"
        print "  %n = extractvalue { i8, i64 } %v, 1"
        print "  %at = getelementptr i8, ptr %result, i64 8"
        print "  store i64 %n, ptr %at, align 8"
        print "  ret void"
    } else if (type == "void") {
        print "  call void @" library "_module_" name "(" list ")"
        print "  ret void"
    } else {
        print "  %v = call " type " @" library "_module_" name "(" list ")"
        gsub(/(noundef|zeroext) /, "", type)
        print "  ret " type " %v"
    }
    print "}"
}
