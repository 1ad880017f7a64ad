-- The rows of client packets: how they are dissected, and which tributary each came from.
return function(part)

local otn, rows = part("fields").otn, part("reader")
local concat = table.concat

-- The client of UPI 1 is Ethernet with its FCS by G.7041. Packets of this project may have none.
local CLIENTS = { "eth_maybefcs", "eth_withfcs", "eth_withoutfcs", "data" }
local client = Proto("otn_client", "Client packet of a line file")
function client.dissector(tvb, pinfo, tree) return Dissector.get(CLIENTS[otn.prefs.client]):call(tvb, pinfo, tree) end

local function set_client()
    local upi = DissectorTable.get("gfp.upi")
    if upi then upi:set(1, client.dissector) end
end

-- Behind Wireshark's own dissection of a client packet: which tributary it came from
local about = Proto("otn_from", "Client packet of a line")
local A = {
    port = ProtoField.uint8("otn.client.port", "Tributary port"),
    slots = ProtoField.string("otn.client.slots", "Slots"),
    turn = ProtoField.uint32("otn.client.turn", "Turn in which its last byte came"),
    good = ProtoField.bool("otn.client.delivered", "Passes the checks of GFP"),
}
about.fields = { A.port, A.slots, A.turn, A.good }
about.experts = { ProtoExpert.new("otn.client.bad", "GFP frame fails its checks", PI_CHECKSUM, PI_WARN) }

local gfp_pli = Field.new("gfp.pli")

function about.dissector(tvb, pinfo, tree)
    if not rows.read_by or not gfp_pli() then return end
    local number = pinfo.number
    if not rows.number_of_client[number] then
        rows.clients_seen = rows.clients_seen + 1
        rows.number_of_client[number] = rows.clients_seen
    end
    local a = rows.read_by.about[rows.number_of_client[number]]
    if not a then return end
    local names = concat(a.slots, ",")
    local node = tree:add(about, tvb(0, 0))
    node:set_text(string.format("Client of tributary port %d, slots %s, turn %d", a.port, names, a.turn))
    node:set_generated()
    node:add(A.port, tvb(0, 0), a.port):set_generated()
    node:add(A.slots, tvb(0, 0), names):set_generated()
    node:add(A.turn, tvb(0, 0), a.turn):set_generated()
    node:add(A.good, tvb(0, 0), a.good):set_generated()
    pinfo.cols.info:prepend(string.format("port %d: ", a.port))
end

register_postdissector(about)

return { set_client = set_client }

end
