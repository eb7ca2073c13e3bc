# calls.awk: C code for each function that include/gussetraft.h declares, so that none is forgotten when one is added.
#
#   awk -f calls.awk -v form=record HEADER    functions of those names that keep a record of each call of recorded_NAME (record.c)
#   awk -f calls.awk -v form=replay HEADER    a table of functions that make a call from its record (replay.c)
#   awk -f calls.awk -v form=names HEADER     the names alone
#   awk -f calls.awk -v form=answers HEADER   the type of each one's answer
#
# A signature has a letter for each parameter: h and w numbers of 16 and 32 bits; r and m a list to read and one to write, its length with it, after each
# the number of bytes of an element.

# The header without comments, lines of the preprocessor and the bodies of its inline functions.
/^#/ { next }
{ text = text $0 "\n" }

function without_comments(all,    out, at) {
    out = ""
    while ((at = index(all, "/*")) > 0) {
        out = out substr(all, 1, at - 1)
        all = substr(all, at + 2)
        all = substr(all, index(all, "*/") + 2)
    }
    return out all
}

function stop(why) { print "calls.awk: " why >"/dev/stderr"; failed = 1; exit 1 }

function bytes(type) {
    if (type == "uint8_t") return 1
    if (type == "uint16_t") return 2
    if (type == "uint32_t") return 4
    if (type == "uint64_t" || type == "double") return 8
    stop("no size is known of " type)
}

function declared(answer, name, parameters,    n, part, i, one, words, count, type, list, at, sig, names, number, lists, before, after, given) {
    gsub(/[ \n\t]+/, " ", parameters)
    n = split(parameters, part, ",")
    number = 0; lists = 0; sig = ""; names = ""; before = ""; after = ""; given = ""
    for (i = 1; i <= n; i++) {
        one = part[i]
        gsub(/^ +| +$/, "", one)
        list = index(one, "*") > 0
        gsub(/\*/, " ", one)
        count = split(one, words, / +/)
        type = words[count - 1]
        at = words[count]
        if (list) {
            i++
            if (part[i] !~ ("size_t " at "_len")) stop(name ": no length after " at)
            sig = sig (words[1] == "const" ? "r" : "m") bytes(type)
            before = before "    list_before(" at ", " at "_len, sizeof *" at ");\n"
            after = after "    list_after(" at ", " at "_len, sizeof *" at ");\n"
            names = names ", " at ", " at "_len"
            given = given ", (" (words[1] == "const" ? "const " : "") type " *)c->lists[" lists "].at, c->lists[" lists "].len"
            lists++
        } else {
            sig = sig (type == "uint16_t" ? "h" : type == "uint32_t" ? "w" : stop(name ": a number of " type))
            before = before "    number_before(" at ");\n"
            names = names ", " at
            given = given ", (" type ")c->numbers[" number "]"
            number++
        }
    }
    if (form == "names") print name
    if (form == "answers") print answer
    if (form == "record") {
        print answer " recorded_" name "(" parameters ");"
        print answer " " name "(" parameters ") {\n    " answer " handed_back;\n    call_begins(\"" name "\", \"" sig "\", sizeof handed_back);"
        printf "%s", before
        print "    handed_back = recorded_" name "(" substr(names, 3) ");"
        printf "%s", after
        print "    call_ends(&handed_back, sizeof handed_back);\n    return handed_back;\n}\n"
    }
    if (form == "replay") {
        print "static void call_" name "(struct call *c) {"
        print "    " answer " answer = " name "(" substr(given, 3) ");\n    memcpy(c->answer, &answer, sizeof answer);\n}\n"
        table = table "    {\"" name "\", \"" sig "\", sizeof(" answer "), call_" name "},\n"
    }
    found++
}

END {
    if (failed) exit 1
    text = without_comments(text)
    # An inline function ends in a brace at the beginning of a line, or on its own line.
    out = ""
    n = split(text, line, "\n")
    for (i = 1; i <= n; i++) {
        if (line[i] ~ /^static inline/) {
            if (line[i] !~ /}$/) while (i <= n && line[i] !~ /^}/) i++
            continue
        }
        out = out line[i] "\n"
    }
    while (match(out, /[a-z0-9_]+ gussetraft_[a-z0-9_]+\([^;{}]*\);/)) {
        declaration = substr(out, RSTART, RLENGTH)
        out = substr(out, RSTART + RLENGTH)
        open = index(declaration, "(")
        split(substr(declaration, 1, open - 1), head, " ")
        declared(head[1], head[2], substr(declaration, open + 1, length(declaration) - open - 2))
    }
    if (!found) stop("no function found")
    if (form == "replay") printf "static const struct function functions[] = {\n%s};\n", table
}
