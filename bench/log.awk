# A log of a memory of 4096 bytes for `pciex search`: awk -v plan=PLAN -v requests=N -f log.awk. Seven requesters;
# requests act at some moment between their submission and their answer, those of a requester in their order. With
# -v wrong=K one answer is wrong: of the requests that act K-th or later the first read is told what its word was 12 changes
# before; of a counter the first addition is told what the one before it was told.
#
#   counter   FetchAdds of 1 to one word, up to 256 open requests a requester
#   mixed     all operations on 16 words, up to 8 open requests a requester
#   atomic    the same without writes
#   locks     each requester takes a lock with CAS, reads and writes behind it, and gives it back with Swap
function random(n) {
    seed = (seed * 16807) % 2147483647
    return int(seed / 2147483647 * n)
}
function bytes(value,    text, i) {
    for (i = 0; i < 4; i++) {
        text = text sprintf("%02X", value % 256)
        value = int(value / 256)
    }
    return text
}
function ask(who, kind, address, first, second) {
    asked = who " " submitted[who]
    kinds[asked] = kind
    places[asked] = address
    firsts[asked] = first
    seconds[asked] = second
    text = sprintf("sub %s %s %X", asked, kind, address)
    if (kind == "read") text = text " 1 F 0"
    else if (kind == "write") text = text " F 0 " bytes(first)
    else text = text " " bytes(first) (kind == "cas" ? " " bytes(second) : "")
    print text
    submitted[who]++
    open[who]++
    left--
}
# A value that no other request has.
function fresh() {
    values++
    return values
}
function submit(who,    kind, address) {
    if (plan == "counter") {
        ask(who, "add", 64, 1)
    } else if (plan == "mixed" || plan == "atomic") {
        address = 64 * random(16)
        kind = plan == "mixed" ? random(6) : 1 + random(5)
        if (kind == 0) ask(who, "write", address, fresh())
        else if (kind == 1) ask(who, "add", address, fresh())
        else if (kind == 2) ask(who, "swap", address, fresh())
        else if (kind == 3) ask(who, "cas", address, memory[address] + 0, fresh())
        else ask(who, "read", address)
    } else if (stage[who] == 0) {
        ask(who, "cas", 0, 0, who)
    } else if (stage[who] == 1) {
        ask(who, "read", 64)
    } else if (stage[who] == 2) {
        ask(who, "write", 64, fresh())
        stage[who] = 3
    } else {
        ask(who, "swap", 0, 0)
    }
}
# What the word is now. It is kept with its last 12 values.
function change(address, value) {
    memory[address] = value
    olds[address " " changes[address]++] = value
    delete olds[address " " changes[address] - 14]
}
# What the request is told that acts now, where the word was that.
function told(asked, address, was) {
    acts++
    if (!wrong || acts < wrong) return was
    if (plan == "counter") {
        wrong = 0
        return was - 1
    }
    if (kinds[asked] != "read" || changes[address] < 13) return was
    wrong = 0
    return olds[address " " changes[address] - 13]
}
# The requester's next request acts.
function act(who,    asked, was, address) {
    asked = who " " acted[who]
    address = places[asked]
    was = memory[address] + 0
    replies[asked] = told(asked, address, was)
    if (kinds[asked] == "add") change(address, (was + firsts[asked]) % 4294967296)
    else if (kinds[asked] == "cas") { if (was == firsts[asked]) change(address, seconds[asked]) }
    else if (kinds[asked] != "read") change(address, firsts[asked])
    acted[who]++
    if (kinds[asked] == "write") open[who]--
}
# The requester's next answer comes.
function answer(who,    asked) {
    while (kinds[who " " answered[who]] == "write") answered[who]++
    if (answered[who] >= acted[who]) return
    asked = who " " answered[who]
    print "ans " asked " data " bytes(replies[asked])
    answered[who]++
    open[who]--
    if (plan == "locks") {
        if (kinds[asked] == "cas") stage[who] = replies[asked] == 0 ? 1 : 0
        else if (kinds[asked] == "read") stage[who] = 2
        else stage[who] = 0
    }
    delete kinds[asked]
    delete places[asked]
    delete firsts[asked]
    delete seconds[asked]
    delete replies[asked]
}
BEGIN {
    seed = 1
    left = requests
    most = plan == "counter" ? 256 : plan == "mixed" || plan == "atomic" ? 8 : 1
    for (who = 1; who <= 7; who++) submitted[who] = acted[who] = answered[who] = open[who] = stage[who] = 0
    print "pciex-log 1"
    print "memory 0 4096 64"
    while (left > 0 || waiting > 0) {
        who = random(7) + 1
        step = random(3)
        if (step == 0 && left > 0 && open[who] < most) submit(who)
        else if (step == 1 && acted[who] < submitted[who]) act(who)
        else answer(who)
        waiting = 0
        if (left <= 0) for (other = 1; other <= 7; other++) waiting += open[other]
    }
    print "end"
}
