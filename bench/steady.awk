# Compares the counts that callgrind dumps for bench/steady.c, which says which calls differ in what goes through tries alone: in
# these each instruction has to be executed as often.

# the call that the counts are of, as "list 3"
/^desc: Trigger: Client Request/ {
    call = $0
    sub(/^desc: Trigger: Client Request: /, "", call)
    split(call, word, " ")
    calls[word[1]]++
}
/^ob=/ { object = $0 }
/^fn=/ { name = substr($0, 4) }
# the line behind this one counts what a callee does
/^calls=/ { skip = 1; next }
/^0x/ {
    if (skip) { skip = 0; next }
    at = object " " $1
    where[at] = name " " $1
    count[call, at] += $3
    total[call] += $3
}
# what callgrind adds up itself
/^totals: / { if ($2 != total[call]) failed = 1 }

# two calls, each less another, have to have the same counts; an instruction is told of once
function same(a, less_a, b, less_b,    at) {
    for (at in where)
        if (!told[at] && count[a, at] - count[less_a, at] != count[b, at] - count[less_b, at]) {
            print "not executed as often for " a " and " b ": " where[at]
            told[at] = failed = 1
        }
}

END {
    operations = split("list step reach", operation, " ")
    for (i = 1; i <= operations; i++) {
        of = operation[i]
        for (level = 2; level <= 56; level++) same(of " 1", "", of " " level, "")
        if (calls[of] != 56) failed = 1
        found = found of ": " total[of " 1"] " instructions, the same ones for each exit from 56 tries\n"
    }
    same("nothing 56", "nothing 6", "pause 56", "pause 6")
    same("twice 1", "", "once 1", "")
    same("both 1", "", "one 1", "")
    if (calls["nothing"] * calls["pause"] != 4 || calls["twice"] * calls["once"] * calls["both"] * calls["one"] != 1) failed = 1
    found = found "list: " total["pause 56"] - total["pause 6"] " more, the same ones, for 0 and for 1 through 50 tries more\n"
    found = found "list: " total["once 1"] ", reach: " total["one 1"] ", the same ones whether 2 goes through one try or two"
    if (failed) {
        print "some instruction is executed more often for one code than for another, or not every call was counted whole"
        exit 1
    }
    print found
}
