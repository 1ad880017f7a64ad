-- A line, frame by frame: alignment, overhead, MSI, and the tributaries that are followed.
return function(part)

local bytes, justification, tributary = part("bytes"), part("justification"), part("tributary")
local otn = part("fields").otn
local at, FAS = bytes.at, bytes.FAS
local char, byte, sub, concat = string.char, string.byte, string.sub, table.concat

-- Four encapsulations for users, so that a line that is saved as pcapng still says its form; `step` is the time of a
-- frame in nanoseconds.
local FORMS = {
    [wtap.USER12] = { name = "OTU2", S = 8, step = 12191 },
    [wtap.USER13] = { name = "OTU3", S = 32, step = 3035 },
    [wtap.USER14] = { name = "OTU2", S = 8, step = 12191, scrambled = true },
    [wtap.USER15] = { name = "OTU3", S = 32, step = 3035, scrambled = true },
}

-- What is kept. `line` is the line whose frames are looked at; `first_msi` the MSI of its slots as the file first says
-- them; `ahead`, by frame, the MFAS of the next one, false where none is whole. The reader sets all three.
local kept = { line = nil, first_msi = nil, ahead = {} }

-- The state of a line before its first frame
local function new_line()
    return { parities = {}, frame = 0, turn = 0, n = nil, hunt = 0, numbers = {}, msi = {}, came = {}, settled = {},
        sinks = nil, trace = { sm = {}, pm = {} }, frames = {}, sapi = {}, infos = {} }
end

-- The sinks that the preference lists
local function listed_sinks(S)
    local text = otn.prefs.tributaries
    local out = {}
    if text == "none" then return out end
    for port, list in string.gmatch(text, "(%d+):([%d,]+)") do
        local slots = {}
        for k in string.gmatch(list, "%d+") do slots[#slots + 1] = tonumber(k) end
        out[#out + 1] = tributary.new_sink(tonumber(port), slots, S)
    end
    return out
end

-- The port that an MSI byte says, or nil
local function port_of(b) return b and b >= 128 and b < 192 and b - 127 or nil end

-- The sinks by the MSI bytes: what each slot's last one says, before the first one that one. A tributary whose slots
-- are others is another.
local function sinks_by_msi(line)
    local by_port, sinks = {}, {}
    for k = 1, line.S do
        local port = port_of(line.settled[k] or kept.first_msi and kept.first_msi[k])
        if port then
            by_port[port] = by_port[port] or {}
            table.insert(by_port[port], k)
        end
    end
    for port = 1, 64 do
        local slots = by_port[port]
        if slots then
            local same
            for _, k in ipairs(line.sinks or {}) do
                if k.port == port and concat(k.slots, ",") == concat(slots, ",") then same = k end
            end
            sinks[#sinks + 1] = same or tributary.new_sink(port, slots, line.S)
        end
    end
    return sinks
end

-- The text of bytes 1 to 15 of a trace, where all came
local function sapi_of(trace)
    local text = ""
    for i = 1, 15 do
        local c = trace[i]
        if not c then return nil end
        if c >= 32 and c < 127 then text = text .. char(c) end
    end
    return text
end

-- The trace that a tributary's client frames say
local function client_trace(sink, events)
    for _, e in ipairs(events) do
        if e.stat and e.stat < 5 then
            sink.trace = sink.trace or {}
            sink.trace[e.mfas % 64] = e.tti
            if e.mfas % 64 == 15 then sink.sapi = sapi_of(sink.trace) or sink.sapi end
        end
        e.sapi = sink.sapi
    end
end

-- A turn is over: what its sinks make of it. `ended` is its number: a frame at which a hunt ends is of no turn itself
local function end_turn(info, whole)
    local line = kept.line
    if whole then
        for k, b in pairs(line.came) do line.settled[k] = b end
    end
    line.came = {}
    info.ended = line.turn
    if otn.prefs.tributaries == "auto" then
        line.sinks = sinks_by_msi(line)
    elseif not line.sinks then
        line.sinks = listed_sinks(line.S)
    end
    info.tributaries = {}
    for _, k in ipairs(line.sinks) do
        local before = k.state
        local shown = tributary.take_turn(k, whole and line.frames or nil, line.first)
        shown.before = before
        info.tributaries[#info.tributaries + 1] = shown
        client_trace(k, shown.odu)
    end
end

-- FAS, parity and traces of one frame: what any frame has, aligned or not
local function overhead(s, form)
    local line = kept.line
    local info = { frame = line.frame }
    line.infos[line.frame] = info
    line.frame = line.frame + 1
    line.S = form.S
    info.fas_wrong = sub(s, 1, 6) ~= FAS
    info.parity = bytes.parity(s)
    local two = line.parities
    if two[2] then
        info.due = two[1]
        info.sm_wrong = byte(s, at(1, 9)) ~= info.due
        info.pm_wrong = byte(s, at(3, 11)) ~= info.due
    end
    line.parities = two[1] and { two[#two], info.parity } or { info.parity }
    local m = byte(s, 7) % 64
    for name, place in pairs({ sm = at(1, 8), pm = at(3, 10) }) do
        local t = line.trace[name]
        t[m] = byte(s, place)
        if m == 15 then line.sapi[name] = sapi_of(t) or line.sapi[name] end
    end
    info.sapi_sm, info.sapi_pm = line.sapi.sm, line.sapi.pm
    return info
end

local function msi_of(slot) return kept.line.msi[slot] or kept.first_msi and kept.first_msi[slot] end

-- Whether a message stands in this slot's frame: its port has no greater slot
local function greatest_of_its_port(slot, S)
    local own = msi_of(slot)
    if not port_of(own) then return false end
    for k = slot + 1, S do
        if msi_of(k) == own then return false end
    end
    return true
end

-- The message that stands in this frame, of slot n + 1
local function listen(s, info, S, n)
    local line, slot = kept.line, n + 1
    local former = line.numbers[slot]
    local C, how = justification.hear_number(former, byte(s, at(1, 16)), byte(s, at(2, 16)), byte(s, at(3, 16)))
    if C then line.numbers[slot] = C elseif how == "base lost" then line.numbers[slot] = nil end
    info.jc = { slot = slot, C = C, how = how, msi = msi_of(slot), greatest = greatest_of_its_port(slot, S) }
end

-- Frame n of a turn with a multiframe
local function locked_frame(s, info, S, n)
    local line = kept.line
    info.turn, info.n, info.expected = line.turn, n, (line.first + n) % 256
    info.mfas_wrong = byte(s, 7) ~= info.expected
    if info.mfas_wrong then line.misses = line.misses + 1 end
    line.frames[n + 1] = s
    local e = info.expected
    if e >= 2 and e <= S + 1 then
        local slot, b = e - 1, byte(s, at(4, 15))
        if line.msi[slot] and line.msi[slot] ~= b then info.msi_was = line.msi[slot] end
        line.msi[slot], line.came[slot] = b, b
    end
    listen(s, info, S, n)
    if n < S - 1 then
        line.n = n + 1
        return
    end
    if line.misses > S / 2 then
        info.lost = true
        end_turn(info, false)
        line.n, line.hunt, line.pending = nil, line.frame, nil
    else
        end_turn(info, true)
        line.first = (line.first + S) % 256
        line.n, line.misses = 0, 0
    end
    line.turn = line.turn + 1
end

-- A turn that found no multiframe is over
local function hunted(info)
    end_turn(info, false)
    kept.line.turn = kept.line.turn + 1
end

-- A frame while the line hunts. A line locks by the MFAS of the next frame: where that is not known beforehand, the
-- frame waits for it.
local function hunting_frame(s, info, S)
    local line, mfas, f = kept.line, byte(s, 7), info.frame
    local p = line.pending
    if p and mfas == p.mfas + 1 then
        line.first, line.n, line.misses, line.pending = p.mfas, 0, 0, nil
        p.info.locks = true
        locked_frame(p.s, p.info, S, 0)
        locked_frame(s, info, S, 1)
        return
    end
    if f - line.hunt == S then        -- the window is over
        hunted(p and p.info or info)
        line.hunt = f
    end
    line.pending = nil
    if mfas % S == 0 and kept.ahead[f] == mfas + 1 then
        line.first, line.n, line.misses = mfas, 0, 0
        info.locks = true
        locked_frame(s, info, S, 0)
        return
    end
    info.hunting = true
    if mfas % S == 0 and kept.ahead[f] == nil then
        line.pending = { mfas = mfas, info = info, s = s }
    elseif f - line.hunt == S - 1 then
        hunted(info)
        line.hunt = f + 1
    end
end

-- Takes one frame into the state of the line, once, in the order of the file; answers what there is to show of it.
local function analyse(s, form)
    local line, info = kept.line, overhead(s, form)
    if line.turn == 0 then line.turn = 1 end
    if line.n then
        locked_frame(s, info, form.S, line.n)
    else
        hunting_frame(s, info, form.S)
    end
    return info
end

return { FORMS = FORMS, kept = kept, new_line = new_line, port_of = port_of, end_turn = end_turn, analyse = analyse }

end
