-- A dissector of HELLO messages (RFC 891, IP protocol 63) for Wireshark and tshark:
--     tshark -X lua_script:tools/hello.lua -r FILE.pcap -V
-- What the library would refuse is marked as an expert info, with the number of the answer.

local hello = Proto("hello", "DCN Local-Network Protocol HELLO")

local fields = hello.fields
fields.checksum = ProtoField.uint16("hello.checksum", "Checksum", base.HEX)
fields.status = ProtoField.string("hello.checksum.status", "Checksum Status")
fields.date = ProtoField.uint16("hello.date", "DATE", base.HEX)
fields.awaited = ProtoField.bool("hello.date.awaited", "A master's date is awaited", 16, nil, 0x8000)
fields.zero = ProtoField.uint16("hello.date.zero", "Zero", base.DEC, nil, 0x4000)
fields.month = ProtoField.uint16("hello.date.month", "Month", base.DEC, nil, 0x3C00)
fields.day = ProtoField.uint16("hello.date.day", "Day", base.DEC, nil, 0x03E0)
fields.year = ProtoField.uint16("hello.date.year", "Year less 1972", base.DEC, nil, 0x001F)
fields.time = ProtoField.uint32("hello.time", "Time (ms)", base.DEC)
fields.tsp = ProtoField.uint16("hello.tsp", "TSP", base.DEC)
fields.address_offset = ProtoField.uint8("hello.address_offset", "ADDRESS-OFFSET", base.DEC)
fields.nhosts = ProtoField.uint8("hello.nhosts", "NHOSTS", base.DEC)
fields.delay = ProtoField.uint16("hello.delay", "DELAY (ms)", base.DEC)
fields.offset = ProtoField.int16("hello.offset", "OFFSET (ms)", base.DEC)
fields.answer = ProtoField.uint8("hello.answer", "Answer", base.DEC)

local experts = hello.experts
experts.length = ProtoExpert.new(
    "hello.length.bad", "The length is not 12 + 4 NHOSTS (answer 6)", expert.group.MALFORMED, expert.severity.ERROR)
experts.checksum = ProtoExpert.new(
    "hello.checksum.bad", "The HELLO checksum is not good (answer 7)", expert.group.CHECKSUM, expert.severity.ERROR)
experts.date = ProtoExpert.new(
    "hello.date.bad", "This is no day from 1972 to 2003; the packet is taken", expert.group.PROTOCOL, expert.severity.WARN)

local FIXED = 12
local REPORT = 4
local FORM, CHECKSUM = 6, 7

-- The folded one's complement sum of all 16-bit words; 0xFFFF if the checksum is good.
local function sum(buffer)
    local total = 0
    for place = 0, buffer:len() - 1, 2 do
        total = total + buffer(place, 1):uint() * 256
        if place + 1 < buffer:len() then
            total = total + buffer(place + 1, 1):uint()
        end
    end
    while total > 0xFFFF do
        total = total % 0x10000 + math.floor(total / 0x10000)
    end
    return total
end

-- Whether a DATE word is a real date.
local function is_date(word)
    local year = 1972 + bit.band(word, 0x1F)
    local day = bit.band(bit.rshift(word, 5), 0x1F)
    local month = bit.band(bit.rshift(word, 10), 0xF)
    local last = 30 + (month + math.floor(month / 8)) % 2
    if month == 2 then
        last = year % 4 == 0 and 29 or 28
    end
    return bit.band(word, 0x4000) == 0 and month >= 1 and month <= 12 and day >= 1 and day <= last
end

function hello.dissector(buffer, info, tree)
    info.cols.protocol = "HELLO"
    local message = tree:add(hello, buffer())
    if buffer:len() < FIXED then
        message:add(fields.answer, FORM):set_generated()
        message:add_proto_expert_info(experts.length)
        info.cols.info = "HELLO too short"
        return buffer:len()
    end
    local answer = 0
    local good = sum(buffer) == 0xFFFF
    local nhosts = buffer(11, 1):uint()
    local right = buffer:len() == FIXED + REPORT * nhosts
    local real = is_date(buffer(2, 2):uint())
    if not right then
        answer = FORM
    elseif not good then
        answer = CHECKSUM
    end
    message:add(fields.answer, answer):set_generated()
    local checksum = message:add(fields.checksum, buffer(0, 2))
    message:add(fields.status, good and "Good" or "Bad"):set_generated()
    if not good then
        checksum:add_proto_expert_info(experts.checksum)
    end
    local date = message:add(fields.date, buffer(2, 2))
    date:add(fields.awaited, buffer(2, 2))
    date:add(fields.zero, buffer(2, 2))
    date:add(fields.month, buffer(2, 2))
    date:add(fields.day, buffer(2, 2))
    date:add(fields.year, buffer(2, 2))
    if not real then
        date:add_proto_expert_info(experts.date)
    end
    message:add(fields.time, buffer(4, 4))
    message:add(fields.tsp, buffer(8, 2))
    message:add(fields.address_offset, buffer(10, 1))
    local count = message:add(fields.nhosts, buffer(11, 1))
    if not right then
        count:add_proto_expert_info(experts.length)
    end
    for id = 0, nhosts - 1 do
        local place = FIXED + REPORT * id
        if place + REPORT > buffer:len() then
            break
        end
        local report = message:add(buffer(place, REPORT), "Host " .. id)
        report:add(fields.delay, buffer(place, 2))
        report:add(fields.offset, buffer(place + 2, 2))
    end
    info.cols.info = string.format("HELLO time %d ms, %d hosts", buffer(4, 4):uint(), nhosts)
    return buffer:len()
end

DissectorTable.get("ip.proto"):add(63, hello)
