-- The reader of a line file: a row for each frame, and one for each client packet behind the frame that ends its turn.
return function(part)

local bytes, line_part = part("bytes"), part("line")
local otn = part("fields").otn
local FORMS, kept = line_part.FORMS, line_part.kept
local FRAME, at, bxor = bytes.FRAME, bytes.at, bytes.bxor
local byte, floor = string.byte, math.floor

-- The reader of a file follows the line while it reads, and makes the rows of client packets. Where frames come from
-- another file (a line that was saved as pcapng), the dissector follows the line by itself.
local rows = { read_by = nil, frames_seen = 0, number_of_frame = {}, clients_seen = 0, number_of_client = {} }

function otn.init()
    kept.line, rows.read_by, kept.first_msi, kept.ahead = line_part.new_line(), nil, nil, {}
    rows.frames_seen, rows.clients_seen, rows.number_of_frame, rows.number_of_client = 0, 0, {}, {}
    part("client_rows").set_client()
end

-- The MFAS and PSI bytes of the first 320 frames, as they stand in the file
local function first_frames(file)
    local frames = {}
    while #frames < 320 do
        file:seek("set", #frames * FRAME)
        local head = file:read(7)
        if not head or #head < 7 then break end
        file:seek("set", #frames * FRAME + at(4, 15) - 1)
        local psi = file:read(1)
        if not psi or #psi < 1 then break end
        frames[#frames + 1] = { byte(head, 7), byte(psi) }
    end
    return frames
end

-- Whether more MFAS bytes go on as those of a scrambled line do
local function looks_scrambled(frames)
    local plain, masked, former = 0, 0, nil
    for _, f in ipairs(frames) do
        local mfas = f[1]
        if former then
            if mfas == (former + 1) % 256 then plain = plain + 1 end
            if mfas == (former - 1) % 256 or bxor(mfas, 255) == (bxor(former, 255) + 1) % 256 then
                masked = masked + 1
            end
        end
        former = mfas
    end
    return masked > plain
end

-- Whether the MFAS of a frame goes on from the one before, or to the next one: else it may be damaged
local function in_step(frames, i)
    local before, behind = frames[i - 1], frames[i + 1]
    return before and frames[i][1] == (before[1] + 1) % 256 or behind and behind[1] == (frames[i][1] + 1) % 256
end

-- The form of a line file: 0 OTU2, 1 OTU3, and 2 more where it is scrambled; and the MSI bytes that its slots first
-- have. Where the preference does not say it, a line is OTU3 where most PSI bytes for slots above 8 are MSI bytes.
local function form_of(file)
    local frames = first_frames(file)
    local given, scrambled = otn.prefs.form, nil
    if given == 1 then scrambled = looks_scrambled(frames) else scrambled = given >= 4 end
    local m = scrambled and bytes.line_mask()
    for _, f in ipairs(scrambled and frames or {}) do
        f[1], f[2] = bxor(f[1], 255), bxor(f[2], m[at(4, 15)])
    end
    local wide, msi = 0, {}
    for i, f in ipairs(frames) do
        local mfas, psi = f[1], f[2]
        if mfas >= 2 and mfas <= 33 and in_step(frames, i) then
            if mfas >= 10 then wide = wide + (psi >= 128 and 1 or -1) end
            if psi >= 128 and not msi[mfas - 1] then msi[mfas - 1] = psi end
        end
    end
    if given > 1 then return given - 2, msi end
    return (wide > 0 and 1 or 0) + (scrambled and 2 or 0), msi
end

local handler = FileHandler.new("OTN line file", "otn-line", "A line of OTU2 or OTU3 frames, plain or scrambled", "rms")
handler.extensions = "line;in;out"

function handler.read_open(file, capture)
    if file:read(6) ~= bytes.FAS then return false end
    local form, msi = form_of(file)
    file:seek("set", 0)
    local encap = wtap["USER" .. (12 + form)]
    local shown = otn.prefs.rows
    capture.encap = shown == 1 and wtap_encaps.PER_PACKET or shown == 2 and encap or wtap_encaps.GFP_F
    capture.time_precision = wtap_filetypes.TSPREC_NSEC
    capture.snapshot_length = FRAME
    -- what is kept of this file: several may be open, as where a dialog shows one before it is opened
    capture.private_table = { line = line_part.new_line(), encap = encap, step = FORMS[encap].step, first_msi = msi,
        ahead = {}, made = {}, about = {}, due = {} }
    return true
end

local function use(capture)
    rows.read_by = capture.private_table
    kept.first_msi, kept.ahead = rows.read_by.first_msi, rows.read_by.ahead
    return rows.read_by
end

-- The head of a record for Wireshark: its time in nanoseconds
local function put_head(frame, time)
    frame.rec_type = wtap_rec_types.PACKET
    frame.flags = wtap_presence_flags.TS + wtap_presence_flags.CAP_LEN
    frame.time = NSTime(floor(time / 1000000000), time % 1000000000)
end

-- Reads frame `number`. In the first pass `place` is where it stands: then it looks at the MFAS behind, since a line
-- locks by it.
local function read_frame(file, read_by, frame, number, place)
    local s = file:read(FRAME)
    if not s or #s == 0 then return false end
    if place then
        local ahead, head = read_by.ahead, file:read(7)
        ahead[number] = head and #head == 7 and byte(head, 7) or false
        if ahead[number] and FORMS[read_by.encap].scrambled then ahead[number] = bxor(ahead[number], 255) end
        file:seek("set", place + #s)
    end
    put_head(frame, number * read_by.step)
    frame.captured_length, frame.original_length = #s, FRAME
    frame.data = s
    return s
end

-- What the sinks of the turn that ended with this frame gave: a row for each client packet
local function make_rows(read_by, info, time)
    for _, t in ipairs(info.tributaries or {}) do
        for _, e in ipairs(t.odu) do
            for _, g in ipairs(e.gfp or {}) do
                local n = #read_by.made + 1
                read_by.made[n] = { bytes = g.bytes, time = time }
                read_by.about[n] = { port = t.port, slots = t.slots, turn = info.ended, frame = info.frame,
                    good = g.packet ~= nil }
                read_by.due[#read_by.due + 1] = n
                g.bytes, g.packet = nil, g.packet ~= nil
            end
        end
    end
end

local MADE = 2 ^ 44                   -- places of rows that are made, behind any place of a file
local function put_made(read_by, frame, n)
    local row = read_by.made[n]
    put_head(frame, row.time)
    frame.encap = wtap_encaps.GFP_F
    frame.captured_length, frame.original_length = #row.bytes, #row.bytes
    frame.data = row.bytes
end

-- The turn in which the line ended gives what its sinks still hold; answers whether there was one
local function end_line(read_by, number)
    local line = read_by.line
    kept.line = line
    if read_by.ended or otn.prefs.rows == 2 or line.frame == 0 then return false end
    read_by.ended = true
    local info = { frame = line.frame }
    line_part.end_turn(info, false)
    make_rows(read_by, info, number * read_by.step)
    return true
end

function handler.read(file, capture, frame)
    local read_by = use(capture)
    while true do
        if read_by.due[1] and otn.prefs.rows ~= 2 then
            local n = table.remove(read_by.due, 1)
            put_made(read_by, frame, n)
            return MADE + n
        end
        local place = file:seek("cur", 0)
        local number = floor(place / FRAME)
        local s = read_frame(file, read_by, frame, number, place)
        if not s then
            if not end_line(read_by, number) then return false end
            s = ""
        end
        frame.encap = read_by.encap
        if #s == FRAME then
            local form = FORMS[read_by.encap]
            if form.scrambled then s = bytes.unscrambled(s) end
            kept.line = read_by.line
            local info = line_part.analyse(s, form)
            make_rows(read_by, info, (number + 1) * read_by.step - 1)
            if otn.prefs.rows ~= 3 then return place end
        elseif #s > 0 and otn.prefs.rows ~= 3 then
            return place
        end
    end
end

function handler.seek_read(file, capture, frame, offset)
    local read_by = use(capture)
    if offset >= MADE then
        put_made(read_by, frame, offset - MADE)
        return true
    end
    file:seek("set", offset)
    frame.encap = read_by.encap
    return read_frame(file, read_by, frame, floor(offset / FRAME)) and true
end

register_filehandler(handler)

return rows

end
