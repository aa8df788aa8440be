# The packets of a memory's ports, as `pciex decode` writes them, in the order of time, to a log for `pciex search`:
#
#   pciex decode < packets.txt | awk -v size=4096 -f examples/packets_to_log.awk | pciex search
#
# Each Requester ID is a requester of its own, at most seven, in the order in which they occur. A completion answers the
# request of its Requester ID and tag, of which there is one at a time, and whole: parts of a split completion are not put
# together. Configuration requests and their completions are left out.
function wrong(what) {
    print "packets_to_log: line " NR " " what ": " $0 > "/dev/stderr"
    exit status = 1
}
BEGIN {
    print "pciex-log 1"
    print "memory 0 " (size ? size : 4096) " 64"
}
$1 == "fault" { wrong("is no packet") }
!/ (from|to) [0-9A-F]+ tag / { next }
{
    split(substr($0, match($0, / (from|to) [0-9A-F]+ tag /) + 1), words, " ")
    id = words[2]
    request = id " " words[4]
}
/^cfg/ {
    configures[request]
    next
}
$1 == "completion" && request in configures {
    delete configures[request]
    next
}
$1 == "completion" {
    if (!(request in number)) wrong("answers no request")
    print "ans", requester[id], number[request], $2 == "sc" ? "data " $3 : $2
    delete number[request]
    next
}
{
    if (!(id in requester)) requester[id] = ++requesters
    if ($1 != "write" && (request in number)) wrong("has the tag of an open request")
    if ($1 != "write") number[request] = following[id] + 0
    sub(/ from .*/, "")
    print "sub", requester[id], following[id]++, $0
}
END {
    if (status) exit status
    print "end"
}
