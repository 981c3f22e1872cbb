# Makes a script of the client messages: for each, a table with one pair, a.example., whose adopted key is the one that the comment names; the message is
# looked up and then judged at its time signed. An adoption is judged on the table that the renewal before it left.
/^#/ {
    serial = $0; sub(/.*; key /, "", serial); sub(/\..*/, "", serial)
    signed = $0; sub(/.*time signed /, "", signed); sub(/ .*/, "", signed)
    goes_on = /TKEY adoption/
    next
}
NF {
    if (!goes_on) {
        print "new " signed - 100
        print "enrol " signed - 100 " 0161076578616d706c6500 86400 43200 256"
        if (serial > 1) print "issue " signed - 100 " 1 384"
        if (serial > 2) print "issue " signed - 100 " 1 512"
    }
    print "look " $0
    print "message " signed " good 5ec2e7 512 " $0
    print "list"
}
