-- Justification (GMP): the messages JC1 to JC6, and which groups of a turn hold data.
return function(part)

local bytes = part("bytes")
local bxor, remainder = bytes.bxor, bytes.remainder
local floor, concat, sub = math.floor, table.concat, string.sub
local P = 15232                       -- groups in a turn

local function crc8(jc1, jc2) return remainder(jc1 * 256 + jc2, 16, 0x10D, 8) end
local function crc5(d) return remainder(d, 10, 0x23, 5) end

-- Bits inverted, indicators (II, DI), change
local PATTERNS = {
    { 0x2AAA, 2, 1 }, { 0x1555, 1, -1 }, { 0x1999, 2, 2 }, { 0x2666, 1, -2 },
}

-- JC1 to JC3 after the number `former`: the number or nil, and what it was: "outright", "as before", "+1" and so on,
-- "damaged", "base lost"
local function hear_number(former, jc1, jc2, jc3)
    if crc8(jc1, jc2) ~= jc3 then return nil, "damaged" end
    local bits, flags = jc1 * 64 + floor(jc2 / 4), jc2 % 4
    local number, how
    if flags == 3 then number, how = bits, "outright"
    elseif flags == 0 then number, how = bits, bits == former and "as before" or "as it stands"
    else
        if former then
            for _, p in ipairs(PATTERNS) do
                if p[2] == flags and bxor(former, p[1]) == bits then
                    number, how = former + p[3], string.format("%+d", p[3])
                end
            end
        end
        if not number then return nil, "base lost" end
    end
    if number < 0 or number > P then return nil, "damaged" end
    return number, how
end

-- The data groups among the groups of a turn, M bytes each, by the number C
local function data_groups(groups, C, M)
    if C == P then return groups end
    if C == 0 then return "" end
    local out, n = {}, P - C
    if n < C then                     -- between stuff groups
        local from = 0                -- groups done
        for s = 1, n do
            local j = floor((s - 1) * P / n) + 1      -- the group that is stuff
            if j - 1 > from then out[#out + 1] = sub(groups, M * from + 1, M * (j - 1)) end
            from = j
        end
        out[#out + 1] = sub(groups, M * from + 1, M * P)
    else
        for d = 1, C do
            local j = floor((d * P + C - 1) / C)
            out[#out + 1] = sub(groups, M * (j - 1) + 1, M * j)
        end
    end
    return concat(out)
end

return { crc8 = crc8, crc5 = crc5, hear_number = hear_number, data_groups = data_groups }

end
