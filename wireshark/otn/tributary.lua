-- The sink of a tributary: what it makes of each turn of the line.
return function(part)

local at = part("bytes").at
local justification, client_frames = part("justification"), part("client_frames")
local byte, sub, concat = string.byte, string.sub, table.concat

-- A pattern that takes the bytes of these slots out of a row, in the order of the columns, and what to put for it
local function slot_pattern(slots, S)
    local own, pattern, count = {}, "", 0
    for _, k in ipairs(slots) do own[k] = true end
    for k = 1, S do
        if own[k] and not own[k - 1] then
            pattern, count = pattern .. "(", count + 1
        end
        pattern = pattern .. "."
        if own[k] and not own[k + 1] then pattern = pattern .. ")" end
    end
    if count <= 9 then
        local whole = ""
        for i = 1, count do whole = whole .. "%" .. i end
        return pattern, whole
    end
    return pattern, function(...) return concat({ ... }) end
end

-- A sink of a port on some slots, before its first turn; S is 8 or 32, the frames of a turn
local function new_sink(port, slots, S)
    local pattern, whole = slot_pattern(slots, S)
    return { port = port, slots = slots, M = #slots, S = S, pattern = pattern, whole = whole, turn = 0,
        state = "waiting", wrong = {}, twice = {}, damaged = 0, down = 0, ext = "", odu = client_frames.new_reader() }
end

-- The MSI bytes of the turn: answers the least slot of which they were wrong twice in a row, or nil
local function see_msi(k, frames, expected, marks)
    for n = 0, k.S - 1 do
        local slot = (expected + n) % 256 - 1
        for _, own in ipairs(k.slots) do
            if own == slot then
                local wrong = byte(frames[n + 1], at(4, 15)) ~= 128 + k.port - 1
                k.twice[slot] = wrong and k.wrong[slot] or false
                k.wrong[slot] = wrong
            end
        end
    end
    local marked
    for _, slot in ipairs(k.slots) do
        if k.twice[slot] then
            marked = marked or slot
            marks[#marks + 1] = slot
        end
    end
    return marked
end

-- The message of the turn, which stands in the frame of the greatest slot
local function message_of(k, frames, former)
    local f = frames[k.slots[#k.slots]]
    local jc1, jc2, jc3 = byte(f, at(1, 16)), byte(f, at(2, 16)), byte(f, at(3, 16))
    local jc4, jc5, jc6 = byte(f, at(1, 15)), byte(f, at(2, 15)), byte(f, at(3, 15))
    local d = (jc4 % 32) * 32 + jc5 % 32
    local C, how = justification.hear_number(former, jc1, jc2, jc3)
    if justification.crc5(d) ~= jc6 % 32 or d >= k.M then C, how = nil, "damaged" end
    return { C = C, D = d, how = how }
end

-- A turn of a sink that is not up; answers what it emits
local function begin(k, frames, marked, message, shown)
    if frames and not marked and message.C and (message.how == "outright" or message.how == "as before" or
        message.how == "as it stands") then
        k.state, k.C, k.D, k.began = "up", message.C, message.D, true
        k.ext, k.X, k.E, k.damaged, k.down = "", 0, 0, 0, 0
        k.first = true
    elseif k.began or k.turn >= 4 then
        k.state = "down"
        local emitted = client_frames.ais(k.down * k.M * 15168, k.M * 15168)
        k.down = k.down + 1
        shown.ais = true
        return emitted
    elseif k.turn == 3 then
        k.state = "down"
    end
    return ""
end

-- A turn with a multiframe of a sink that is up; answers what it emits
local function go_on(k, frames, message)
    local groups = {}
    for n = 1, k.S do
        for row = 1, 4 do
            groups[#groups + 1] = (string.gsub(sub(frames[n], at(row, 17), at(row, 3824)), k.pattern, k.whole))
        end
    end
    k.ext = k.ext .. justification.data_groups(concat(groups), k.C, k.M)
    local x_before = k.X
    k.X = k.X + k.M * k.C
    local due = k.first and 0 or x_before + k.D2
    local e = math.max(k.E, math.min(k.X, due))
    local emitted = sub(k.ext, 1, e - k.E)
    k.ext = sub(k.ext, e - k.E + 1)
    k.E, k.first = e, false
    k.D2 = k.D
    if message.how ~= "damaged" then k.C, k.D = message.C, message.D end
    return emitted
end

-- Why a stretch of a sink that is up ends in this turn; nil where it goes on
local function why_ended(k, frames, marked, message)
    local damaged = message and message.how == "damaged"
    k.damaged = damaged and k.damaged + 1 or 0
    return not frames and "no multiframe" or marked and "MSI of slot " .. marked .. " wrong twice"
        or k.damaged == 3 and "3 messages damaged" or message.how == "base lost" and "base lost" or nil
end

-- One turn of a sink. frames: the S frames as text, or nil where the turn has no multiframe. Answers what there is to
-- show of it.
local function take_turn(k, frames, expected)
    k.turn = k.turn + 1
    local shown = { port = k.port, slots = k.slots, turn = k.turn, marks = {} }
    local fresh = k.state ~= "up"
    local marked, message
    if frames then
        marked = see_msi(k, frames, expected, shown.marks)
        message = message_of(k, frames, not fresh and k.C or nil)
        shown.how = message.how
    end
    local emitted
    if fresh then
        emitted = begin(k, frames, marked, message, shown)
        if k.state == "up" then k.D2 = k.D end
    else
        shown.ended = why_ended(k, frames, marked, message)
        if shown.ended then
            emitted = k.ext
            k.ext, k.state, k.down = "", "down", 0
        else
            emitted = go_on(k, frames, message)
        end
    end
    shown.state, shown.bytes = k.state, #emitted
    shown.C, shown.D = k.state == "up" and k.C or nil, k.state == "up" and k.D or nil
    shown.odu = client_frames.take(k.odu, emitted)
    return shown
end

return { new_sink = new_sink, slot_pattern = slot_pattern, take_turn = take_turn }

end
