# Shows each line of a script beside what it printed: awk -f beside.awk SCRIPT RESULTS. A listing has several lines, and stands under its call.
BEGIN {
    hex = "0123456789abcdef"
    split("TABLE TIME CLOCK SIZE OFFER FORMAT NOTQUERY ROOM NOPAIR NOKEY SPENT NAME TERM TWIN FULL", refusal, " ")
    tsig[16] = "BADSIG"; tsig[17] = "BADKEY"; tsig[18] = "BADTIME"; tsig[3841] = "PartialRevoke"
    tkey["0000"] = "no error"; tkey["0001"] = "FORMERR"; tkey["0002"] = "SERVFAIL"; tkey["0010"] = "BADSIG"; tkey["0011"] = "BADKEY"
    tkey["0012"] = "BADTIME"; tkey["0013"] = "BADMODE"; tkey["0014"] = "BADNAME"; tkey["0015"] = "BADALG"
}

FNR == NR { calls[++count] = $0; next }

# A call, its long words cut.
function shown(call,    words, n, i, text) {
    n = split(call, words, " ")
    for (i = 1; i <= n; i++) text = text (i > 1 ? " " : "") (length(words[i]) > 24 ? substr(words[i], 1, 21) "..." : words[i])
    return text
}

# What a result says, in words.
function meaning(call,    verb) {
    split(call, verb, " ")
    if ($1 == 6) return "refused: FORMAT, broken at octet " $8
    if ($1 > 0) return "refused: " refusal[$1]
    if (verb[1] == "new") return "a new table"
    if (verb[1] == "enrol" || verb[1] == "issue") return "pair " $5 " has key " $6
    if (verb[1] == "revoke") return "key " $6 " of pair " $5 " is partly revoked"
    if (verb[1] == "look") return $5 ? "pair " $5 ", key " $6 : "no key"
    if ($3 > 0) return "answered with RCODE 9, " tsig[$3]
    if ($2 == 0) return $5 ? "passed up: pair " $5 ", key " $6 ", skew " $4 : "handed up unsigned"
    if (substr($7, 13, 4) == "0000") return "answered with RCODE " substr($7, 8, 1)
    return "answered with a TKEY record, key " $6 " signing: " tkey_error($7)
}

# The error of the TKEY record in a reply: 1 question; the record's names are written out.
function tkey_error(reply,    at) {
    at = past_name(reply, 25) + 8
    at = past_name(reply, at) + 20
    at = past_name(reply, at) + 20
    return tkey[substr(reply, at, 4)]
}

function octet(digits) { return 16 * (index(hex, substr(digits, 1, 1)) - 1) + index(hex, substr(digits, 2, 1)) - 1 }

function past_name(reply, at,    n) {
    while ((n = octet(substr(reply, at, 2))) > 0) at += 2 * n + 2
    return at + 2
}

function next_call() { print ""; print shown(calls[++line]) }

!/^(clock|pair|key)\t/ { next_call(); printf "    %s    %s\n", shown($0), meaning(calls[line]); next }
/^clock\t/ { next_call() }
{ print "    " $0 }
