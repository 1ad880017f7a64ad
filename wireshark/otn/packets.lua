-- GFP: client packets out of the payload of client frames.
return function(part)

local bytes = part("bytes")
local bxor, crc16, crc32 = bytes.bxor, bytes.crc16, bytes.crc32
local char, byte, sub, rep = string.char, string.byte, string.sub, string.rep
local floor, concat, unpack = math.floor, table.concat, table.unpack or unpack

-- x^43 + 1; `before`: the last six bytes of the list behind
local function descramble(got, before)
    local all, out, n = before .. got, {}, #got
    for i = 1, n, 100 do
        local last = math.min(i + 99, n)
        local b = { byte(all, i, last + 6) }          -- byte i of got is byte i + 6 of all
        local piece = {}
        for x = 1, last - i + 1 do
            piece[x] = bxor(b[x + 6], (b[x] % 8) * 32 + floor(b[x + 1] / 8))
        end
        out[#out + 1] = char(unpack(piece))
    end
    return concat(out), sub(all, -6)
end

-- The length (PLI) that the core header there says, with one bit corrected where `near`; nil where it is none
local BARKER = { 0xB6, 0xAB, 0x31, 0xE0 }
local function header(s, i, near)
    local a, b, c, d = byte(s, i, i + 3)
    a, b, c, d = bxor(a, BARKER[1]), bxor(b, BARKER[2]), bxor(c, BARKER[3]), bxor(d, BARKER[4])
    local syndrome = bxor(crc16(a, b), c * 256 + d)
    if syndrome == 0 then return a * 256 + b end
    if not near then return nil end
    for bit = 0, 15 do
        if syndrome == 2 ^ bit then return a * 256 + b end
    end
    for bit = 0, 15 do
        local v = bxor(a * 256 + b, 2 ^ bit)
        if crc16(floor(v / 256), v % 256) == c * 256 + d then return v end
    end
end

local function new_reader()
    return { state = "HUNT", text = "", six = rep("\0", 6), idles = 0, frames = 0 }
end

-- A GFP frame of this area: its bytes as they are before scrambling, and its packet where it passes its checks
local function frame_of(area)
    local a, b, c, d = byte(area, 1, 4)
    local good = a < 32 and a % 16 == 0 and b == 1 and crc16(a, b) == c * 256 + d
    local fcs = a >= 16 and a % 32 >= 16
    local size = #area - 4 - (fcs and 4 or 0)
    local packet = size > 0 and sub(area, 5, 4 + size)
    if good and fcs and size > 0 then
        local w, x, y, z = byte(area, -4, -1)
        good = crc32(packet) == ((w * 256 + x) * 256 + y) * 256 + z
    end
    local high, low = floor(#area / 256), #area % 256
    local check = crc16(high, low)
    return {
        bytes = char(high, low, floor(check / 256), check % 256) .. area,
        packet = good and size > 0 and packet or nil,
    }
end

-- The place behind the first header from place i on, where there is one; else the place where the next search begins
local function hunt(r, t, i)
    local pli
    while i + 3 <= #t do
        pli = header(t, i)
        if pli then break end
        i = i + 1
    end
    if not pli then return i, false end
    r.skip, r.state = pli >= 4 and pli or 0, "PRESYNC"
    return i + 4, true
end

-- The bytes of one more piece of payload; answers the list of frames that end in it
local function take(r, s)
    local out = {}
    local t, i = r.text .. s, 1
    while true do
        if r.state == "HUNT" then
            local found
            i, found = hunt(r, t, i)
            if not found then break end
        end
        -- between headers: r.skip bytes of the frame's area, then a header
        if #t - i + 1 < r.skip then break end
        if r.state == "SYNC" and r.skip > 0 then
            local area
            area, r.six = descramble(sub(t, i, i + r.skip - 1), r.six)
            out[#out + 1] = frame_of(area)
            r.frames = r.frames + 1
        end
        i, r.skip = i + r.skip, 0
        if #t - i + 1 < 4 then break end
        local pli = header(t, i, r.state == "SYNC")
        if pli then
            r.state, r.skip = "SYNC", pli >= 4 and pli or 0
            if pli == 0 then r.idles = r.idles + 1 end
            i = i + 4
        else
            r.state, i = "HUNT", i + 1
        end
    end
    r.text = sub(t, i)
    return out
end

return { new_reader = new_reader, take = take }

end
