# What tools/believed printed, item by item, and what an item rests on, all the way down. For other tools: `follow` marks in seen[] an item and all below.
/^@@ / {
    item = ++count
    kind[item] = $2; name[item] = $3; place[item] = $4
    short[item] = $3; sub(/^.*::/, "", short[item])
    by[short[item], $4] = item
    if ($2 == "contract" || $2 == "private") contract[$3] = item
    next
}
/^\t/ { sub(/^\t/, ""); uses[item] = uses[item] "\n" $0; next }
{
    lines[item]++
    text[item] = text[item] "\n" $0
    # a constructor leads to its data type, and a variant to its enum
    if (kind[item] == "definition" && /^  [^ ]+ : /) names($1)
    if (kind[item] == "type") { parts = split($0, word, " "); for (i = 1; i <= parts; i++) if (word[i] ~ /^[A-Z]/) names(word[i]) }
}
function names(part) { if (!((part, place[item]) in by)) by[part, place[item]] = item }
function lost(what) { print "tools/believed: " what >"/dev/stderr"; bad = 1 }
function follow(item,    list, n, i, at, part) {
    if (item in seen) return
    seen[item] = 1
    n = split(uses[item], list, "\n")
    for (i = 2; i <= n; i++) {
        at = part = list[i]
        sub(/^.* from /, "", at)
        sub(/ from .*/, "", part); sub(/ as .*/, "", part)
        if (sub(/^the contract of /, "", at)) {
            if (!(at in contract)) sub(/::[a-z0-9_]+/, "", at) # without its module
            if (at in contract) follow(contract[at]); else lost("no contract of " at)
        } else if (at ~ /^crates\//) {
            sub(/^.*\./, "", part) # without the module's short name
            if ((part, at) in by) follow(by[part, at]); else lost("nothing in " at " is called " part)
        }
    }
}
