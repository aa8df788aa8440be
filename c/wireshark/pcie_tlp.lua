-- Wireshark and tshark: PCI Express TLPs of a memory, one a frame, in captures of link type DLT_USER0 (147): MRd, MWr,
-- FetchAdd, Swap, CAS, Cpl and CplD. A frame begins with the first byte of the TLP's header.
--
--     tshark -2 -X lua_script:pcie_tlp.lua -r x.pcap
--
-- A completion is linked with its request by Requester ID and tag. A fault of form, with its name in docs/formats.md, is
-- marked as malformed. What a PCI Express TLP may be but one of pciex may not, such as a digest, is marked as a note.
local tlp = Proto("pcie_tlp", "PCI Express TLP")

local kinds = {
    [0x00] = "MRd", [0x20] = "MRd", [0x40] = "MWr", [0x60] = "MWr", [0x4C] = "FetchAdd", [0x6C] = "FetchAdd",
    [0x4D] = "Swap", [0x6D] = "Swap", [0x4E] = "CAS", [0x6E] = "CAS", [0x0A] = "Cpl", [0x4A] = "CplD",
}
local statuses = {
    [0] = "Successful Completion", [1] = "Unsupported Request", [2] = "Configuration Retry", [4] = "Completer Abort",
}

local f = {
    kind = ProtoField.uint8("pcie_tlp.kind", "Fmt and Type", base.HEX, kinds),
    t9 = ProtoField.bool("pcie_tlp.t9", "T9", 8, nil, 0x80),
    tc = ProtoField.uint8("pcie_tlp.tc", "Traffic Class", base.DEC, nil, 0x70),
    t8 = ProtoField.bool("pcie_tlp.t8", "T8", 8, nil, 0x08),
    ido = ProtoField.bool("pcie_tlp.ido", "ID-based ordering (Attr[2])", 8, nil, 0x04),
    ln = ProtoField.bool("pcie_tlp.ln", "Lightweight Notification (LN)", 8, nil, 0x02),
    th = ProtoField.bool("pcie_tlp.th", "Processing Hints (TH)", 8, nil, 0x01),
    td = ProtoField.bool("pcie_tlp.td", "Digest (TD)", 8, nil, 0x80),
    ep = ProtoField.bool("pcie_tlp.ep", "Poisoned (EP)", 8, nil, 0x40),
    ro = ProtoField.bool("pcie_tlp.ro", "Relaxed Ordering (Attr[1])", 8, nil, 0x20),
    ns = ProtoField.bool("pcie_tlp.ns", "No Snoop (Attr[0])", 8, nil, 0x10),
    at = ProtoField.uint8("pcie_tlp.at", "Address Type (AT)", base.DEC, nil, 0x0C),
    length = ProtoField.uint16("pcie_tlp.length", "Length (DW)", base.DEC),
    requester = ProtoField.uint16("pcie_tlp.requester", "Requester ID", base.HEX),
    tag = ProtoField.uint8("pcie_tlp.tag", "Tag", base.HEX),
    last = ProtoField.uint8("pcie_tlp.last_be", "Last DW BE", base.HEX, nil, 0xF0),
    first = ProtoField.uint8("pcie_tlp.first_be", "First DW BE", base.HEX, nil, 0x0F),
    address = ProtoField.uint64("pcie_tlp.address", "Address", base.HEX),
    completer = ProtoField.uint16("pcie_tlp.completer", "Completer ID", base.HEX),
    status = ProtoField.uint8("pcie_tlp.status", "Status", base.DEC, statuses, 0xE0),
    bcm = ProtoField.bool("pcie_tlp.bcm", "Byte Count Modified (BCM)", 8, nil, 0x10),
    count = ProtoField.uint16("pcie_tlp.byte_count", "Byte Count", base.DEC),
    lower = ProtoField.uint8("pcie_tlp.lower", "Lower Address", base.HEX, nil, 0x7F),
    data = ProtoField.bytes("pcie_tlp.data", "Data"),
    operand = ProtoField.bytes("pcie_tlp.operand", "Operand"),
    compare = ProtoField.bytes("pcie_tlp.compare", "Compare value"),
    swap = ProtoField.bytes("pcie_tlp.swap", "Swap value"),
    digest = ProtoField.bytes("pcie_tlp.digest", "Digest"),
    request_in = ProtoField.framenum("pcie_tlp.request_in", "Request in frame", base.NONE, frametype.REQUEST),
    answer_in = ProtoField.framenum("pcie_tlp.answer_in", "Completion in frame", base.NONE, frametype.RESPONSE),
    time = ProtoField.relative_time("pcie_tlp.time", "Time from the request"),
}
tlp.fields = f
local malformed = ProtoExpert.new("pcie_tlp.malformed", "Malformed TLP", expert.group.MALFORMED, expert.severity.ERROR)
local outside = ProtoExpert.new("pcie_tlp.outside", "Not a TLP of pciex", expert.group.PROTOCOL, expert.severity.NOTE)
local lonely = ProtoExpert.new("pcie_tlp.lonely", "No open request has this Requester ID and tag",
    expert.group.SEQUENCE, expert.severity.WARN)
tlp.experts = { malformed, outside, lonely }

-- ---- requests and completions

-- Open requests by Requester ID and tag; of each request its completions, and of each completion its request.
local open, answers, asked, times = {}, {}, {}, {}
function tlp.init()
    open, answers, asked, times = {}, {}, {}, {}
end

-- Notes the frame of a non-posted request.
local function note_request(pinfo, key)
    if not pinfo.visited then
        open[key], times[pinfo.number], answers[pinfo.number] = pinfo.number, pinfo.rel_ts, {}
    end
end

-- Notes the frame of a completion. After the last one for a request, that is no longer open.
local function note_completion(pinfo, key, is_last)
    local request = open[key]
    if not pinfo.visited and request then
        asked[pinfo.number], times[pinfo.number] = request, pinfo.rel_ts
        table.insert(answers[request], pinfo.number)
        if is_last then
            open[key] = nil
        end
    end
end

local function show_links(pinfo, all, is_completion)
    local request = asked[pinfo.number]
    if request then
        all:add(f.request_in, request):set_generated()
        local seconds = times[pinfo.number] - times[request]
        all:add(f.time, NSTime.new(math.floor(seconds), math.floor(seconds % 1 * 1e9 + 0.5))):set_generated()
    elseif is_completion then
        all:add_proto_expert_info(lonely)
    end
    for _, answer in ipairs(answers[pinfo.number] or {}) do
        all:add(f.answer_in, answer):set_generated()
    end
end

-- ---- faults of form, in the order of docs/formats.md

-- First DW BE that enable bytes up to the top of the DW without a gap, and Last DW BE from its bottom.
local tops = { [8] = true, [12] = true, [14] = true, [15] = true }
local bottoms = { [1] = true, [3] = true, [7] = true, [15] = true }

-- Whether First and Last DW BE keep their rule, for so many DW at an address.
local function are_enables(first, last, dw, address_low)
    if dw == 1 then
        return last == 0
    end
    local is_run = tops[first] and bottoms[last]
    return first ~= 0 and last ~= 0 and (is_run or (dw == 2 and address_low % 8 == 0))
end

-- The fault of a TLP whose header is there, or nil.
local function fault_of(t)
    if t.rest ~= t.wanted then
        return string.format("LengthMismatch: %d bytes behind the header, and Length says %d", t.rest, t.wanted)
    elseif (t.kind == "MRd" or t.kind == "MWr") and not are_enables(t.first, t.last, t.dw, t.low) then
        return string.format("ByteEnables: First DW BE %X, Last DW BE %X, Length %d", t.first, t.last, t.dw)
    elseif not t.is_atomic then
        return nil
    elseif t.width ~= 4 and t.width ~= 8 and not (t.kind == "CAS" and t.width == 16) then
        return string.format("OperandSize: %s with Length %d", t.kind, t.dw)
    elseif t.low % t.width ~= 0 then
        return string.format("Unaligned: an operand of %d bytes at %s", t.width, t.address)
    end
end

-- What pciex takes no packet with, though PCI Express has it.
local function show_notes(all, b1, b2, t)
    local notes = {
        { b1 >= 128 or b1 % 16 >= 8, "TenBitTag" }, { b1 % 4 ~= 0, "Hints" }, { b2 >= 128, "Digest" },
        { b2 % 128 >= 64, "Poisoned" }, { b2 % 16 >= 4, "Translated" }, { t.has_data and t.dw > 32, "PayloadTooLong" },
    }
    for _, note in ipairs(notes) do
        if note[1] then
            all:add_proto_expert_info(outside, note[2] .. ": pciex takes no such packet")
        end
    end
end

-- ---- the parts of a TLP

local function show_common(all, buffer, t)
    all:add(f.kind, buffer(0, 1))
    for _, name in ipairs({ "t9", "tc", "t8", "ido", "ln", "th" }) do
        all:add(f[name], buffer(1, 1))
    end
    for _, name in ipairs({ "td", "ep", "ro", "ns", "at" }) do
        all:add(f[name], buffer(2, 1))
    end
    all:add(f.length, buffer(2, 2), t.dw)
end

local function show_request(all, buffer, t)
    all:add(f.requester, buffer(4, 2))
    all:add(f.tag, buffer(6, 1))
    t.last, t.first = math.floor(buffer(7, 1):uint() / 16), buffer(7, 1):uint() % 16
    if not t.is_atomic then
        all:add(f.last, buffer(7, 1))
        all:add(f.first, buffer(7, 1))
    end
    t.low = buffer(t.header - 4, 4):uint()
    t.low = t.low - t.low % 4
    local address = UInt64(t.low, t.header == 16 and buffer(8, 4):uint() or 0)
    t.address = address:tohex():gsub("^0+(%x)", "%1"):upper()
    all:add(f.address, buffer(8, t.header - 8), address)
    return t.kind .. " " .. t.address
end

local function show_completion(all, buffer, t)
    local status = math.floor(buffer(6, 1):uint() / 32)
    local count = (buffer(6, 2):uint() % 4096 + 4095) % 4096 + 1
    all:add(f.completer, buffer(4, 2))
    all:add(f.status, buffer(6, 1))
    all:add(f.bcm, buffer(6, 1))
    all:add(f.count, buffer(6, 2), count)
    all:add(f.requester, buffer(8, 2))
    all:add(f.tag, buffer(10, 1))
    all:add(f.lower, buffer(11, 1))
    t.is_last = status ~= 0 or not t.has_data or count <= 4 * t.dw - buffer(11, 1):uint() % 4
    return status == 0 and t.kind or t.kind .. " " .. (statuses[status] or "status " .. status)
end

local function show_data(all, buffer, t)
    local length = math.min(t.captured, t.has_data and 4 * t.dw or 0)
    if length == 0 then
        return ""
    elseif t.kind == "CAS" and length == 2 * t.width then
        all:add(f.compare, buffer(t.header, t.width))
        all:add(f.swap, buffer(t.header + t.width, t.width))
    else
        all:add((t.kind == "FetchAdd" or t.kind == "Swap") and f.operand or f.data, buffer(t.header, length))
    end
    if t.captured > length and t.has_digest then
        all:add(f.digest, buffer(t.header + length))
    end
    return " " .. tostring(buffer(t.header, length):bytes())
end

-- What the first four bytes say: nil, and why, if they are none of a TLP. Of a frame that was cut when it was captured, the
-- packet's own length counts.
local function begin(buffer)
    local bytes, captured = buffer:reported_len(), buffer:len()
    local b0 = captured > 0 and buffer(0, 1):uint()
    local t = { header = b0 and b0 % 64 >= 32 and 16 or 12, is_cut = captured < bytes }
    if captured < t.header and bytes >= t.header then
        return nil, nil, string.format("%d of %d bytes captured", captured, bytes)
    elseif bytes < t.header then
        return nil, string.format("Short: %d bytes, and the header has %d", bytes, t.header)
    elseif b0 >= 128 and b0 < 160 then
        return nil, "Prefix: Fmt is 100b"
    elseif not kinds[b0] then
        return nil, string.format("Kind: %02Xh is no memory request, AtomicOp or completion", b0)
    end
    t.kind = kinds[b0]
    t.has_data = b0 >= 64
    t.is_completion = t.kind == "Cpl" or t.kind == "CplD"
    t.is_atomic = t.kind == "FetchAdd" or t.kind == "Swap" or t.kind == "CAS"
    t.has_digest = buffer(2, 1):uint() >= 128
    t.dw = buffer(2, 2):uint() % 1024
    if t.dw == 0 and t.kind ~= "Cpl" then
        t.dw = 1024
    end
    t.width = t.kind == "CAS" and 2 * t.dw or 4 * t.dw
    t.rest = bytes - t.header
    t.captured = captured - t.header
    t.wanted = (t.has_data and 4 * t.dw or 0) + (t.has_digest and 4 or 0)
    return t
end

function tlp.dissector(buffer, pinfo, tree)
    local all = tree:add(tlp, buffer())
    pinfo.cols.protocol = "PCIe TLP"
    local t, why, cut = begin(buffer)
    if not t then
        if why then
            all:add_proto_expert_info(malformed, why)
        end
        pinfo.cols.info = why or cut
        return
    end
    show_common(all, buffer, t)
    local text = (t.is_completion and show_completion or show_request)(all, buffer, t)
    text = text .. show_data(all, buffer, t) .. (t.is_cut and ".." or "")
    local fault = fault_of(t)
    if fault then
        all:add_proto_expert_info(malformed, fault)
        text = text .. ", " .. fault
    end
    show_notes(all, buffer(1, 1):uint(), buffer(2, 1):uint(), t)
    local at = t.is_completion and 8 or 4
    local id = string.format("%04X", buffer(at, 2):uint())
    local tag, high = buffer(at + 2, 1):uint(), buffer(1, 1):uint()
    local key = string.format("%s %d %d %d", id, high >= 128 and 1 or 0, high % 16 >= 8 and 1 or 0, tag)
    if not fault and t.is_completion then
        note_completion(pinfo, key, t.is_last)
    elseif not fault and t.kind ~= "MWr" then
        note_request(pinfo, key)
    end
    show_links(pinfo, all, t.is_completion)
    pinfo.cols.src = t.is_completion and "memory" or id
    pinfo.cols.dst = t.is_completion and id or "memory"
    pinfo.cols.info = string.format("%s, tag %02X", text, tag)
end

DissectorTable.get("wtap_encap"):add(wtap.USER0, tlp)
