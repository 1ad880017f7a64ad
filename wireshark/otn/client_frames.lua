-- Client frames (ODU0, ODUflex) out of the bytes that the sink of a tributary emits, and the stream of AIS.
return function(part)

local FAS = part("bytes").FAS
local packets = part("packets")
local char, byte, sub, rep = string.char, string.byte, string.sub, string.rep
local floor, concat = math.floor, table.concat
local SIZE = 15296                    -- bytes of a client frame

local function new_reader()
    return { text = "", framed = false, misses = 0, packets = packets.new_reader() }
end

local function at(row, column) return 3824 * (row - 1) + column end

-- What a whole client frame says, with the GFP frames that end in it
local function event_of(r, f)
    local event = { mfas = byte(f, 7), tti = byte(f, at(3, 10)), stat = byte(f, at(3, 12)) % 8,
        fas = r.misses == 0, pt = byte(f, 7) == 0 and byte(f, at(4, 15)) or nil, gfp = {} }
    if event.stat >= 5 then
        r.packets = packets.new_reader()
    else
        local area = {}
        for row = 1, 4 do area[row] = sub(f, at(row, 17), at(row, 3824)) end
        event.gfp = packets.take(r.packets, concat(area))
    end
    return event
end

-- Looks once at the FAS of the frame at place i: answers whether the alignment is lost by it
local function judge(r, t, i)
    r.judged = true
    if sub(t, i, i + 5) == FAS then r.misses = 0 else r.misses = r.misses + 1 end
    if r.misses < 5 then return false end
    r.framed, r.packets = false, packets.new_reader()
    return true
end

-- The bytes of one more turn; answers a list of events: { mfas =, stat =, tti = .. } of each whole frame, with its GFP
-- frames, or { lost = true }
local function take(r, s)
    local out = {}
    local t, i = r.text .. s, 1
    while true do
        if not r.framed then
            local found = string.find(t, FAS, i, true)
            if not found then
                i = math.max(i, #t - 4)
                break
            end
            i, r.framed, r.misses, r.judged = found, true, 0, false
        end
        if #t - i + 1 < 6 then break end
        if not r.judged and judge(r, t, i) then
            i = i + 6
            out[#out + 1] = { lost = true }
        end
        if r.framed then
            if #t - i + 1 < SIZE then break end
            local f = sub(t, i, i + SIZE - 1)
            i, r.judged = i + SIZE, false
            out[#out + 1] = event_of(r, f)
        end
    end
    r.text = sub(t, i)
    return out
end

-- Bytes of the stream of AIS from a place on; it comes again after 256 frames
local AIS = {}
local function ais(from, size)
    local out, left = {}, size
    local place = from % (256 * SIZE)
    while left > 0 do
        local f, x = floor(place / SIZE), place % SIZE
        if not AIS[f] then
            AIS[f] = FAS .. char(f) .. rep("\0", 7) .. rep("\255", at(2, 13) - 14) .. "\0"
                .. rep("\255", SIZE - at(2, 14))
        end
        local piece = sub(AIS[f], x + 1, math.min(SIZE, x + left))
        out[#out + 1] = piece
        left = left - #piece
        place = (place + #piece) % (256 * SIZE)
    end
    return concat(out)
end

return { new_reader = new_reader, take = take, ais = ais }

end
