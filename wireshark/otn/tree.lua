-- The tree of a frame, its columns, and its notes.
return function(part)

local bytes, line_part, justification = part("bytes"), part("line"), part("justification")
local fields, rows, slot_pattern = part("fields"), part("reader"), part("tributary").slot_pattern
local otn, F, X, STAT = fields.otn, fields.F, fields.X, fields.STAT
local FORMS, kept, port_of = line_part.FORMS, line_part.kept, line_part.port_of
local FRAME, at = bytes.FRAME, bytes.at
local floor, concat, format = math.floor, table.concat, string.format

local function made(item) item:set_generated() return item end

local function msi_text(b)
    if not b then return "not seen" end
    if b == 0xC0 then return "free" end
    if port_of(b) then return "port " .. port_of(b) end
    return format("0x%02X", b)
end

local function state_number(state) return state == "waiting" and 0 or state == "up" and 1 or 2 end

-- A client frame of a tributary; answers how many packets end in it
local function show_client_frame(node, t, e, none)
    local o = made(node:add(F.odu_mfas, none, e.mfas))
    made(o:add(F.odu_stat, none, e.stat))
    made(o:add(F.odu_tti, none, e.tti))
    if e.sapi then made(o:add(F.odu_sapi, none, e.sapi)) end
    if e.pt then made(o:add(F.odu_pt, none, e.pt)) end
    o:append_text(format(", STAT %s", STAT[e.stat] or e.stat))
    if not e.fas then o:append_text(", its FAS is wrong") end
    if e.stat >= 5 and e.fas then
        o:add_proto_expert_info(X.signal, format("Port %d carries %s", t.port, STAT[e.stat]))
    end
    local count = 0
    for _, g in ipairs(e.gfp) do
        if g.packet then
            count = count + 1
        else
            made(o:add(F.gfp_dropped, none, true)):add_proto_expert_info(X.gfp)
        end
    end
    return count
end

-- What the sink of a tributary made of the turn; answers how many packets end in it
local function show_tributary(t, tvb, parent)
    local none, names = tvb(0, 0), concat(t.slots, ",")
    local text = format("Tributary port %d, slots %s: %s", t.port, names, t.state)
    if t.C then text = text .. format(", Cm %d, CnD %d", t.C, t.D) end
    text = text .. format(", %d bytes", t.bytes)
    local node = made(parent:add(F.trib, none, format("port %d slots %s", t.port, names)):set_text(text))
    made(node:add(F.trib_port, none, t.port))
    made(node:add(F.trib_slots, none, names))
    local state = made(node:add(F.trib_state, none, state_number(t.state)))
    if t.C then
        made(node:add(F.trib_cm, none, t.C))
        made(node:add(F.trib_cnd, none, t.D))
    end
    made(node:add(F.trib_bytes, none, t.bytes))
    if t.ended then made(node:add(F.trib_why, none, t.ended)) end
    if t.before ~= "up" and t.state == "up" then
        state:add_proto_expert_info(X.up, format("Port %d goes up", t.port))
    end
    if t.before ~= "down" and t.state == "down" then
        state:add_proto_expert_info(X.down, format("Port %d goes down: %s", t.port, t.ended or "never came up"))
    end
    local count = 0
    for _, e in ipairs(t.odu) do
        if e.lost then
            node:add_proto_expert_info(X.odu)
        else
            count = count + show_client_frame(node, t, e, none)
        end
    end
    return count
end

-- The parts of the tree write to v: its frame (tvb, root, info, form), the words of its row, and its trouble.

local function show_place(v)
    local info, m = v.info, v.tvb(6, 1)
    made(v.root:add(F.frame, v.tvb(0, 0), info.frame))
    if info.turn then
        made(v.root:add(F.turn, v.tvb(0, 0), info.turn))
        made(v.root:add(F.nth, v.tvb(0, 0), info.n))
    end
    made(v.root:add(F.alignment, m, info.n and (info.locks and "locks here" or "locked") or "hunting"))
    v:say(format("MFAS %d", v.mfas))
    v:say(info.turn and format("turn %d.%d", info.turn, info.n) or "hunting")
end

local function show_alignment(v)
    local info = v.info
    local fas = v.root:add(F.fas, v.tvb(0, 6))
    if info.fas_wrong then
        fas:add_proto_expert_info(X.fas)
        v:wrong("FAS")
    end
    local m = v.root:add(F.mfas, v.tvb(6, 1))
    if info.expected then made(m:add(F.mfas_due, v.tvb(6, 1), info.expected)) end
    if info.mfas_wrong then
        m:add_proto_expert_info(X.mfas, format("MFAS wrong: %d, expected %d", v.mfas, info.expected))
        v:wrong("MFAS")
    end
    if info.lost then
        m:add_proto_expert_info(X.lost)
        v:wrong("lost multiframe")
    end
end

local SECTION = { all = F.sm, tti = F.sm_tti, sapi = F.sapi_sm, bip = F.sm_bip, status = F.sm_bip_status,
    rest = { F.sm_bei, F.sm_bdi, F.sm_iae }, expert = X.sm, label = "SM BIP-8", place = at(1, 8) - 1 }
local PATH = { all = F.pm, tti = F.pm_tti, sapi = F.sapi_pm, bip = F.pm_bip, status = F.pm_bip_status,
    rest = { F.pm_bei, F.pm_bdi, F.pm_stat }, expert = X.pm, label = "PM BIP-8", place = at(3, 10) - 1 }

-- Section or path monitoring: trace, BIP-8 with its check, and the bits of the third byte
local function show_monitoring(v, names, wrong, sapi)
    local tvb, place, due = v.tvb, names.place, v.info.due
    local node = v.root:add(names.all, tvb(place, 3))
    local tti = node:add(names.tti, tvb(place, 1))
    if sapi and sapi ~= "" then
        made(tti:add(names.sapi, tvb(place, 1), sapi))
        node:append_text(', SAPI "' .. sapi .. '"')
    end
    local bip = node:add(names.bip, tvb(place + 1, 1))
    made(node:add(names.status, tvb(place + 1, 1), due and (wrong and 0 or 1) or 2))
    bip:append_text(due and (wrong and format(" [should be 0x%02x]", due) or " [correct]") or " [unverified]")
    if wrong then
        bip:add_proto_expert_info(names.expert)
        v:wrong(names.label)
    end
    for _, item in ipairs(names.rest) do node:add(item, tvb(place + 2, 1)) end
end

local function show_structure(v)
    local tvb, place, e = v.tvb, at(4, 15) - 1, v.info.expected or v.mfas
    local psi, b = v.root:add(F.psi, tvb(place, 1)), tvb(place, 1):uint()
    if e == 0 then
        psi:add(F.pt, tvb(place, 1))
        v:say(format("PT %02X", b))
    elseif e >= 2 and e <= v.form.S + 1 then
        made(psi:add(F.msi_slot, tvb(place, 1), e - 1))
        made(psi:add(F.msi_free, tvb(place, 1), b == 0xC0))
        if port_of(b) then made(psi:add(F.msi_port, tvb(place, 1), port_of(b))) end
        psi:append_text(format(", MSI of slot %d: %s", e - 1, msi_text(b)))
        v:say(format("MSI slot %d %s", e - 1, msi_text(b)))
        if v.info.msi_was then
            psi:add_proto_expert_info(X.msi, format("MSI of slot %d was %s", e - 1, msi_text(v.info.msi_was)))
            v:wrong("MSI")
        end
    end
end

local CRC8 = { status = F.jc_crc8_status, expert = X.crc8, label = "JC CRC-8" }
local CRC5 = { status = F.jc_crc5_status, expert = X.crc5, label = "JC CRC-5" }

-- The status of a check of a message: its item, its byte of the frame, what came and what should be
local function show_check(v, node, names, item, byte, got, want)
    made(node:add(names.status, byte, want == got and 1 or 0))
    if want ~= got then
        item:append_text(format(" [should be 0x%02x]", want))
        item:add_proto_expert_info(names.expert)
        v:wrong(names.label)
    end
end

local function show_message(v)
    local jc = v.info.jc
    if not jc then return end
    local tvb, b = v.tvb, {}
    local places = { at(1, 16) - 1, at(2, 16) - 1, at(3, 16) - 1, at(1, 15) - 1, at(2, 15) - 1, at(3, 15) - 1 }
    for i = 1, 6 do b[i] = tvb(places[i], 1):uint() end
    local node = v.root:add(F.jc, tvb(places[1], 1))
    node:set_text(format("Justification (GMP) of slot %d: %02X %02X %02X  %02X %02X %02X", jc.slot, b[1], b[2], b[3],
        b[4], b[5], b[6]))
    made(node:add(F.jc_slot, tvb(0, 0), jc.slot))
    if port_of(jc.msi) then made(node:add(F.jc_port, tvb(0, 0), port_of(jc.msi))) end
    if jc.C then made(node:add(F.jc_cm, tvb(places[1], 1), jc.C)) end
    made(node:add(F.jc_how, tvb(places[2], 1), jc.how))
    node:add(F.jc_c, tvb(places[1], 1), b[1] * 64 + floor(b[2] / 4))
    node:add(F.jc_ii, tvb(places[2], 1), floor(b[2] / 2) % 2 == 1)
    node:add(F.jc_di, tvb(places[2], 1), b[2] % 2 == 1)
    local c8 = node:add(F.jc_crc8, tvb(places[3], 1))
    show_check(v, node, CRC8, c8, tvb(places[3], 1), b[3], justification.crc8(b[1], b[2]))
    if jc.how == "base lost" then c8:add_proto_expert_info(X.base) end
    local d = (b[4] % 32) * 32 + b[5] % 32
    made(node:add(F.jc_cnd, tvb(places[4], 1), d))
    local c5 = node:add(F.jc_crc5, tvb(places[6], 1), b[6] % 32)
    show_check(v, node, CRC5, c5, tvb(places[6], 1), b[6] % 32, justification.crc5(d))
    if jc.greatest then
        v:say(format("JC slot %d Cm %s (%s) CnD %d", jc.slot, jc.C or "?", jc.how, d))
    end
end

local function show_payload(v, tree)
    local tvb, S = v.tvb, v.form.S
    local pay = v.root:add(F.payload, tvb(16, 3808)):set_text(format("Payload in %d slots", S))
    if tree.visible then
        for k = 1, S do
            local item = pay:add(F.slot, tvb(15 + k, 1), tostring(k))
            made(item:set_text(format("Slot %d: %s", k, msi_text(v.line.msi[k]))))
            if otn.prefs.slots then
                local pattern, whole = slot_pattern({ k }, S)
                local taken = {}
                for row = 1, 4 do
                    taken[row] = (string.gsub(tvb:raw(at(row, 17) - 1, 3808), pattern, whole))
                end
                local of_slot = ByteArray.new(concat(taken), true):tvb(format("Slot %d", k))
                item:add(F.slot_data, of_slot())
            end
        end
    end
    v.root:add(F.fec, tvb(3824, 256)):set_text("FEC, columns 3825 to 4080 (row 1)")
end

-- What the sinks of the tributaries make of the turn that ends here; answers how many packets end in it
local function show_turn(v)
    if not v.info.tributaries then return 0 end
    local packets, down = 0, {}
    for _, t in ipairs(v.info.tributaries) do
        packets = packets + show_tributary(t, v.tvb, v.root)
        if t.state ~= "up" then down[#down + 1] = format("port %d %s", t.port, t.state) end
    end
    made(v.root:add(F.packets, v.tvb(0, 0), packets))
    if #down > 0 then v:say(concat(down, ", ")) end
    return packets
end

local function show_rest(tvb, pinfo, tree)
    pinfo.cols.info = format("%d bytes after the last whole frame", tvb:len())
    local root = tree:add(otn, tvb(), "Bytes after the last whole frame")
    made(root:add(F.rest, tvb(0, 0), tvb:len())):add_proto_expert_info(X.rest)
    return tvb:len()
end

-- What there is to show of the frame of this row, and the line that it is of
local function info_of(number, tvb, form)
    if not rows.number_of_frame[number] then
        rows.number_of_frame[number] = rows.frames_seen
        rows.frames_seen = rows.frames_seen + 1
    end
    local line = rows.read_by and rows.read_by.line or kept.line
    local info = line.infos[rows.number_of_frame[number]]
    if not info then
        kept.line = line
        info = line_part.analyse(tvb:raw(0, FRAME), form)
    end
    return info, line
end

local function say(v, text) v.words[#v.words + 1] = text end
local function wrong(v, text) v.trouble[#v.trouble + 1] = text end

function otn.dissector(tvb, pinfo, tree)
    local form = FORMS[pinfo.match] or FORMS[wtap.USER12]
    pinfo.cols.protocol = form.name
    if tvb:len() < FRAME then return show_rest(tvb, pinfo, tree) end
    if form.scrambled then
        local s = bytes.unscrambled(tvb:raw(0, FRAME))
        tvb = ByteArray.new(s, true):tvb("Unscrambled frame")
    end
    local info, line = info_of(pinfo.number, tvb, form)
    local head = format("%s frame %d", form.name, info.frame)
    if form.scrambled then head = head .. " (scrambled)" end
    local v = { tvb = tvb, root = tree:add(otn, tvb(), head), info = info, line = line, form = form,
        mfas = tvb(6, 1):uint(), words = {}, trouble = {}, say = say, wrong = wrong }
    show_place(v)
    show_alignment(v)
    show_monitoring(v, SECTION, info.sm_wrong, info.sapi_sm)
    v.root:add(F.gcc0, tvb(10, 2))
    show_monitoring(v, PATH, info.pm_wrong, info.sapi_pm)
    show_structure(v)
    show_message(v)
    show_payload(v, tree)
    local packets = show_turn(v)
    pinfo.cols.protocol = form.name
    pinfo.cols.src = info.sapi_sm or ""
    pinfo.cols.dst = ""
    local text = concat(v.words, "  ")
    if packets > 0 then text = text .. format("  %d packets", packets) end
    if #v.trouble > 0 then text = text .. "  [" .. concat(v.trouble, ", ") .. "]" end
    pinfo.cols.info = text
    return FRAME
end

local encaps = DissectorTable.get("wtap_encap")
for encap in pairs(FORMS) do encaps:add(encap, otn) end

return {}

end
