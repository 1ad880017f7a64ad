-- What can be filtered by: fields, notes on damage (expert infos), and preferences.
return function()

local otn = Proto("otn", "Optical Transport Network")
local status = { [0] = "Bad", [1] = "Good", [2] = "Unverified" }
local STAT = { [1] = "Normal path signal", [5] = "LCK", [6] = "OCI", [7] = "AIS" }
local STATE = { [0] = "Waiting", [1] = "Up", [2] = "Down" }
local MULTIPLEX = { [0x21] = "GMP capable multiplex", [0x20] = "AMP multiplex" }

local function field(name, make, title, ...)
    local f = make("otn." .. name, title, ...)
    otn.fields[#otn.fields + 1] = f
    return f
end

-- The fields by short names
local F = {
    frame = field("frame", ProtoField.uint32, "Frame of the line"),
    turn = field("turn", ProtoField.uint32, "Turn"),
    nth = field("turn.frame", ProtoField.uint8, "Frame of the turn"),
    alignment = field("alignment", ProtoField.string, "Multiframe alignment"),
    fas = field("fas", ProtoField.bytes, "Frame alignment (FAS)", base.SPACE),
    mfas = field("mfas", ProtoField.uint8, "Multiframe alignment (MFAS)"),
    mfas_due = field("mfas.expected", ProtoField.uint8, "Expected MFAS"),
    sm = field("sm", ProtoField.none, "Section monitoring (SM)"),
    sm_tti = field("sm.tti", ProtoField.uint8, "Trail trace (TTI)", base.HEX),
    sm_bip = field("sm.bip8", ProtoField.uint8, "BIP-8", base.HEX),
    sm_bip_status = field("sm.bip8.status", ProtoField.uint8, "BIP-8 status", base.DEC, status),
    sm_bei = field("sm.bei", ProtoField.uint8, "BEI/BIAE", base.DEC, nil, 0xF0),
    sm_bdi = field("sm.bdi", ProtoField.bool, "BDI", 8, nil, 0x08),
    sm_iae = field("sm.iae", ProtoField.bool, "IAE", 8, nil, 0x04),
    gcc0 = field("gcc0", ProtoField.bytes, "GCC0"),
    pm = field("pm", ProtoField.none, "Path monitoring (PM)"),
    pm_tti = field("pm.tti", ProtoField.uint8, "Trail trace (TTI)", base.HEX),
    pm_bip = field("pm.bip8", ProtoField.uint8, "BIP-8", base.HEX),
    pm_bip_status = field("pm.bip8.status", ProtoField.uint8, "BIP-8 status", base.DEC, status),
    pm_bei = field("pm.bei", ProtoField.uint8, "BEI", base.DEC, nil, 0xF0),
    pm_bdi = field("pm.bdi", ProtoField.bool, "BDI", 8, nil, 0x08),
    pm_stat = field("pm.stat", ProtoField.uint8, "STAT", base.DEC, STAT, 0x07),
    sapi_sm = field("sm.sapi", ProtoField.string, "SAPI of the section"),
    sapi_pm = field("pm.sapi", ProtoField.string, "SAPI of the path"),
    psi = field("psi", ProtoField.uint8, "Payload structure (PSI)", base.HEX),
    pt = field("pt", ProtoField.uint8, "Payload type", base.HEX, MULTIPLEX),
    msi_slot = field("msi.slot", ProtoField.uint8, "MSI of slot"),
    msi_port = field("msi.port", ProtoField.uint8, "Tributary port"),
    msi_free = field("msi.free", ProtoField.bool, "Slot is free"),
    jc = field("jc", ProtoField.none, "Justification (GMP)"),
    jc_slot = field("jc.slot", ProtoField.uint8, "Of slot"),
    jc_port = field("jc.port", ProtoField.uint8, "Of tributary port"),
    jc_c = field("jc.c", ProtoField.uint16, "C1 to C14 as sent", base.HEX),
    jc_ii = field("jc.ii", ProtoField.bool, "Increment (II)"),
    jc_di = field("jc.di", ProtoField.bool, "Decrement (DI)"),
    jc_cm = field("jc.cm", ProtoField.uint16, "Cm, data groups of the next turn"),
    jc_how = field("jc.change", ProtoField.string, "Cm is said"),
    jc_crc8 = field("jc.crc8", ProtoField.uint8, "CRC-8", base.HEX),
    jc_crc8_status = field("jc.crc8.status", ProtoField.uint8, "CRC-8 status", base.DEC, status),
    jc_cnd = field("jc.cnd", ProtoField.uint16, "CnD, bytes left over"),
    jc_crc5 = field("jc.crc5", ProtoField.uint8, "CRC-5", base.HEX),
    jc_crc5_status = field("jc.crc5.status", ProtoField.uint8, "CRC-5 status", base.DEC, status),
    payload = field("payload", ProtoField.none, "Payload by slots"),
    slot = field("slot", ProtoField.string, "Slot"),
    slot_data = field("slot.data", ProtoField.bytes, "Bytes of the slot"),
    trib = field("trib", ProtoField.string, "Tributary"),
    trib_port = field("trib.port", ProtoField.uint8, "Tributary port"),
    trib_slots = field("trib.slots", ProtoField.string, "Slots"),
    trib_state = field("trib.state", ProtoField.uint8, "Sink", base.DEC, STATE),
    trib_bytes = field("trib.bytes", ProtoField.uint32, "Bytes that the sink emits in this turn"),
    trib_cm = field("trib.cm", ProtoField.uint16, "Cm"),
    trib_cnd = field("trib.cnd", ProtoField.uint16, "CnD"),
    trib_why = field("trib.ended", ProtoField.string, "Went down by"),
    odu_mfas = field("odu.mfas", ProtoField.uint8, "ODU frame, MFAS"),
    odu_stat = field("odu.stat", ProtoField.uint8, "STAT", base.DEC, STAT),
    odu_tti = field("odu.tti", ProtoField.uint8, "Trail trace (TTI)", base.HEX),
    odu_sapi = field("odu.sapi", ProtoField.string, "SAPI of the client"),
    odu_pt = field("odu.pt", ProtoField.uint8, "Payload type", base.HEX, { [5] = "GFP mapping" }),
    gfp_dropped = field("gfp.dropped", ProtoField.bool, "GFP frame bad"),
    packets = field("packets", ProtoField.uint32, "Client packets that end in this turn"),
    fec = field("fec", ProtoField.bytes, "FEC"),
    rest = field("rest", ProtoField.uint32, "Bytes after the last whole frame"),
}

-- The notes on damage
local X = {
    fas = ProtoExpert.new("otn.fas.wrong", "FAS wrong", PI_MALFORMED, PI_ERROR),
    mfas = ProtoExpert.new("otn.mfas.wrong", "MFAS wrong", PI_SEQUENCE, PI_WARN),
    lost = ProtoExpert.new("otn.multiframe.lost", "lost multiframe", PI_SEQUENCE, PI_ERROR),
    sm = ProtoExpert.new("otn.sm.bip8.wrong", "SM BIP-8 wrong", PI_CHECKSUM, PI_ERROR),
    pm = ProtoExpert.new("otn.pm.bip8.wrong", "PM BIP-8 wrong", PI_CHECKSUM, PI_ERROR),
    crc8 = ProtoExpert.new("otn.jc.crc8.wrong", "message damaged: CRC-8 of JC1 and JC2", PI_CHECKSUM, PI_ERROR),
    crc5 = ProtoExpert.new("otn.jc.crc5.wrong", "message damaged: CRC-5 of CnD", PI_CHECKSUM, PI_ERROR),
    msi = ProtoExpert.new("otn.msi.change", "MSI of the slot changed", PI_SEQUENCE, PI_WARN),
    base = ProtoExpert.new("otn.jc.base.lost", "base lost: a change to no number that was heard", PI_SEQUENCE, PI_WARN),
    up = ProtoExpert.new("otn.trib.up", "Tributary goes up", PI_SEQUENCE, PI_NOTE),
    down = ProtoExpert.new("otn.trib.down", "Tributary goes down", PI_SEQUENCE, PI_WARN),
    signal = ProtoExpert.new("otn.odu.signal", "Maintenance signal in place of the client", PI_SEQUENCE, PI_NOTE),
    odu = ProtoExpert.new("otn.odu.lost", "client frames lost", PI_SEQUENCE, PI_WARN),
    gfp = ProtoExpert.new("otn.gfp.bad", "GFP frame bad", PI_CHECKSUM, PI_WARN),
    rest = ProtoExpert.new("otn.rest.short", "The file ends in the middle of a frame", PI_MALFORMED, PI_WARN),
}
otn.experts = { X.fas, X.mfas, X.lost, X.sm, X.pm, X.crc8, X.crc5, X.msi, X.base, X.up, X.down, X.signal, X.odu, X.gfp,
    X.rest }

otn.prefs.form = Pref.enum("Form", 1, "What a line is; by its bytes: as its first 320 frames say", {
    { 1, "By its bytes", 1 }, { 2, "OTU2", 2 }, { 3, "OTU3", 3 }, { 4, "OTU2 scrambled", 4 },
    { 5, "OTU3 scrambled", 5 } }, false)
otn.prefs.tributaries = Pref.string("Tributaries", "auto", "Which tributaries are followed to their packets: "
    .. "auto (those of the first MSI), none, or a list such as 1:3 2:4,5,8 (port:slots)")
otn.prefs.client = Pref.enum("Client packets", 1, "How the packets of a GFP frame with UPI 1 are shown", {
    { 1, "Ethernet, with or without FCS", 1 }, { 2, "Ethernet with FCS", 2 }, { 3, "Ethernet without FCS", 3 },
    { 4, "Data", 4 } }, false)
otn.prefs.rows = Pref.enum("Rows", 1, "What has a row", {
    { 1, "Frames and client packets", 1 }, { 2, "Frames", 2 }, { 3, "Client packets", 3 } }, false)
otn.prefs.slots = Pref.bool("Bytes of each slot", false, "Show the bytes of each slot in its own tab")

return { otn = otn, F = F, X = X, STAT = STAT }

end
