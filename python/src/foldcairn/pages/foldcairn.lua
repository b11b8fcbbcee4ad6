-- Decodes captures of `python3 -m foldcairn pcap` in Wireshark and tshark 4.0 and later, for example
--     tshark -X lua_script:foldcairn.lua -r run.pcap -Y 'foldcairn.kind == "data"' -T fields -e foldcairn.node
-- It adds the fields foldcairn.*, by the packets of docs/internals/PACKETS.md. Captures of IEEE 802.15.4 TAP that other tools
-- wrote go to Wireshark's own dissector. Tested, not proved.

local foldcairn = Proto("foldcairn", "Foldcairn")
local wireshark = DissectorTable.get("wtap_encap"):get_dissector(wtap_encaps.IEEE802_15_4_TAP)

local f = foldcairn.fields
-- Of the metadata: who transmitted, when, and where.
f.node = ProtoField.uint8("foldcairn.node", "Transmitting node")
f.rank = ProtoField.uint8("foldcairn.rank", "Rank")
f.frame = ProtoField.uint16("foldcairn.frame", "Frame")
f.ticks = ProtoField.uint64("foldcairn.ticks", "Start in ticks of 1/64 us")
f.channel = ProtoField.uint16("foldcairn.channel", "Channel")
f.start = ProtoField.uint64("foldcairn.start", "Start in ns")
f.finish = ProtoField.uint64("foldcairn.end", "End in ns")
f.slot_start = ProtoField.uint64("foldcairn.slot_start", "Start of the slot in ns")
f.slot_length = ProtoField.uint32("foldcairn.slot_length", "Length of the slot in us")
-- Of the packet.
f.kind = ProtoField.string("foldcairn.kind", "Kind")
f.slot = ProtoField.uint8("foldcairn.slot", "Slot")
f.step = ProtoField.uint8("foldcairn.step", "Step (relay counter)")
f.origin = ProtoField.uint8("foldcairn.origin", "Originating node")
f.boot = ProtoField.uint8("foldcairn.boot", "Boot of the originating node")
f.stream = ProtoField.uint8("foldcairn.stream", "Stream")
f.number = ProtoField.uint16("foldcairn.number", "Number in the stream")
f.payload = ProtoField.bytes("foldcairn.payload", "Payload")
f.interval = ProtoField.uint8("foldcairn.interval", "Interval in seconds (0 ends the stream)")
f.host_boot = ProtoField.uint8("foldcairn.host_boot", "Boot of the host")
f.gap = ProtoField.uint8("foldcairn.gap", "Frames to the next round")
f.contention_slots = ProtoField.uint8("foldcairn.contention_slots", "Contention slots")
f.acknowledged = ProtoField.string("foldcairn.acknowledged", "Acknowledged request (node.stream)")
f.owner = ProtoField.string("foldcairn.owner", "Owner of a data slot (node.stream)")
f.malformed = ProtoField.none("foldcairn.malformed", "Not a packet of Foldcairn")

-- The metadata that IEEE 802.15.4 TAP names, by type.
local metadata = { [3] = { f.channel, 2 }, [5] = { f.start, 8 }, [6] = { f.finish, 8 }, [8] = { f.slot_start, 8 }, [9] = { f.slot_length, 4 } }
-- What is ours in a frame without addresses: its first bytes, and how many there are before the packet.
local OURS, OURS_LENGTH = "\5\0FOLD", 18

-- The length of the metadata of a capture of ours, or nil.
local function find_ours(tvb)
    if tvb:len() < 4 then
        return nil
    end
    local length = tvb(2, 2):le_uint()
    if length < 4 or length + OURS_LENGTH > tvb:len() or tvb(length, #OURS):raw() ~= OURS then
        return nil
    end
    return length
end

local function add_metadata(tvb, length, tree)
    local at = 4
    while at + 4 <= length do
        local field, size = metadata[tvb(at, 2):le_uint()], tvb(at + 2, 2):le_uint()
        if field then
            tree:add_le(field[1], tvb(at + 4, field[2]))
        end
        at = at + 4 + size + (-size) % 4
    end
end

-- A node and a stream of their code.
local function named(code)
    return string.format("%d.%d", math.floor(code / 4), code % 4)
end

local function add_data(tvb, tree)
    tree:add(f.origin, tvb(3, 1))
    tree:add(f.boot, tvb(4, 1))
    tree:add(f.stream, tvb(5, 1))
    tree:add(f.number, tvb(6, 2))
    if tvb:len() > 8 then
        tree:add(f.payload, tvb(8))
    end
    return string.format("data %d.%d number %d", tvb(3, 1):uint(), tvb(5, 1):uint(), tvb(6, 2):uint())
end

local function add_request(tvb, tree)
    tree:add(f.origin, tvb(3, 1))
    tree:add(f.boot, tvb(4, 1))
    tree:add(f.stream, tvb(5, 1))
    tree:add(f.interval, tvb(6, 1))
    return string.format("request %d.%d interval %d s", tvb(3, 1):uint(), tvb(5, 1):uint(), tvb(6, 1):uint())
end

-- The owners of data slots: their count, the first code and the width of the differences, and the differences.
local function add_owners(tvb, at, tree)
    local count = tvb(at, 1):uint()
    if count == 0 then
        return 0
    end
    local first = tvb(at + 1, 2):uint()
    local code, width = math.floor(first / 16), first % 16
    tree:add(f.owner, tvb(at + 1, 2), named(code))
    for index = 1, count - 1 do
        local bit = width * (index - 1)
        local byte = math.floor(bit / 8)
        if width > 0 then
            local across = math.ceil((bit % 8 + width) / 8)
            code = code + tvb(at + 3 + byte, across):bitfield(bit % 8, width)
            tree:add(f.owner, tvb(at + 3 + byte, across), named(code))
        else
            tree:add(f.owner, tvb(at + 1, 2), named(code))
        end
    end
    return count
end

local function add_schedule(tvb, tree)
    local gap = tvb(3, 1):uint() % 16
    tree:add(f.gap, tvb(3, 1), gap)
    tree:add(f.host_boot, tvb(4, 1))
    local at, acknowledged
    if tvb(0, 1):uint() == 1 then
        tree:add(f.contention_slots, tvb(0, 1), 1)
        at, acknowledged = 5, tvb(5, 4):uint() == 0 and 0 or 1
    else
        tree:add(f.contention_slots, tvb(5, 1), math.floor(tvb(5, 1):uint() / 16) + 1)
        at, acknowledged = 6, tvb(5, 1):uint() % 16
    end
    for _ = 1, acknowledged do
        tree:add(f.acknowledged, tvb(at, 4), named(4 * tvb(at, 1):uint() + tvb(at + 2, 1):uint()))
        at = at + 4
    end
    if tvb(0, 1):uint() == 1 then
        at = 9
    end
    local owners = add_owners(tvb, at, tree)
    return string.format("%s, %d data slots, %d acknowledged", gap == 0 and "opening" or "closing", owners, acknowledged)
end

local function kind_of(tvb)
    local kind = tvb(0, 1):uint()
    if kind == 2 or kind == 3 then
        return kind == 2 and "data" or "request"
    end
    return tvb(3, 1):uint() % 16 == 0 and "opening" or "closing"
end

local function add_packet(tvb, tree)
    tree:add(f.kind, tvb(0, 1), kind_of(tvb))
    tree:add(f.slot, tvb(1, 1))
    tree:add(f.step, tvb(2, 1))
    local add = ({ add_schedule, add_data, add_request, add_schedule })[tvb(0, 1):uint()]
    return string.format("%s, slot %d, step %d", add(tvb, tree), tvb(1, 1):uint(), tvb(2, 1):uint())
end

function foldcairn.dissector(tvb, pinfo, tree)
    local ours = find_ours(tvb)
    if not ours then
        return wireshark:call(tvb, pinfo, tree)
    end
    local length = ours + OURS_LENGTH
    local whole = tree:add(foldcairn, tvb())
    local about = whole:add(foldcairn, tvb(0, length), "Metadata")
    about:add(f.node, tvb(ours + 6, 1))
    about:add(f.rank, tvb(ours + 7, 1))
    about:add_le(f.frame, tvb(ours + 8, 2))
    about:add_le(f.ticks, tvb(ours + 10, 8))
    add_metadata(tvb, ours, about)
    pinfo.cols.protocol = "Foldcairn"
    pinfo.cols.src = string.format("node %d", tvb(ours + 6, 1):uint())
    pinfo.cols.dst = "all"
    local packet = tvb(length):tvb()
    local read, words = pcall(add_packet, packet, whole:add(foldcairn, tvb(length), "Packet"))
    if not read then
        whole:add(f.malformed, tvb(length))
        words = "not a packet"
    end
    pinfo.cols.info = words
    whole:append_text(": " .. words)
    return tvb:len()
end

DissectorTable.get("wtap_encap"):add(wtap_encaps.IEEE802_15_4_TAP, foldcairn)
