-- Bytes of frames: places, bits, parity, cyclic checks, and the mask of a scrambled line.
return function()

local FRAME, COLUMNS = 16320, 4080
local char, byte = string.char, string.byte
local floor, concat, unpack = math.floor, table.concat, table.unpack or unpack

-- Wireshark before 4.4 has Lua 5.2 with bit32, later ones Lua 5.4 with operators.
local bxor, xor_of                    -- of two numbers; of the bytes from one place to another of a text
if bit32 then
    bxor = bit32.bxor
    function xor_of(s, i, last)
        local x = 0
        while i <= last do
            x = bxor(x, byte(s, i, math.min(i + 199, last)))
            i = i + 200
        end
        return x
    end
else
    bxor = load("return function(a, b) return a ~ b end")()
    xor_of = load([[
        local unpack = string.unpack
        return function(s, i, last)
            local x = 0
            while i + 7 <= last do
                x = x ~ unpack("<i8", s, i)
                i = i + 8
            end
            x = x ~ x >> 32
            x = x ~ x >> 16
            x = (x ~ x >> 8) & 255
            while i <= last do
                x = x ~ s:byte(i)
                i = i + 1
            end
            return x
        end]])()
end

-- The place of a row and column of a line frame, from 1, as Lua counts.
local function at(row, column) return COLUMNS * (row - 1) + column end

-- BIP-8: the XOR of columns 15 to 3824 of the four rows.
local function parity(frame)
    local x = 0
    for row = 1, 4 do x = bxor(x, xor_of(frame, at(row, 15), at(row, 3824))) end
    return x
end

-- What is left of a number of `bits` bits, shifted up by the degree, over the generator.
local function remainder(number, bits, generator, degree)
    local top = 2 ^ degree
    local rest = 0
    for i = bits - 1, -degree, -1 do
        local bit = i >= 0 and floor(number / 2 ^ i) % 2 or 0
        rest = rest * 2 + bit
        if rest >= top then rest = bxor(rest, generator) end
    end
    return rest
end

local CRC16 = {}
for i = 0, 255 do CRC16[i] = remainder(i, 8, 0x11021, 16) end
local function crc16(a, b)
    local first = CRC16[a]
    return bxor((first % 256) * 256, CRC16[bxor(floor(first / 256), b)])
end

local CRC32 = {}
for i = 0, 255 do CRC32[i] = remainder(i, 8, 0x104C11DB7, 32) end
local function crc32(s)
    local x = 0xFFFFFFFF
    for i = 1, #s do
        x = bxor((x % 0x1000000) * 256, CRC32[bxor(floor(x / 0x1000000), byte(s, i))])
    end
    return bxor(x, 0xFFFFFFFF)
end

local mask                            -- of a scrambled line, made when first needed
local function line_mask()
    if mask then return mask end
    local z, n = {}, (FRAME - 6) * 8
    for i = 1, 16 do z[i] = 1 end
    for i = 17, n do z[i] = (z[i - 1] + z[i - 3] + z[i - 12] + z[i - 16]) % 2 end
    mask = { 0, 0, 0, 0, 0, 0 }
    for i = 1, n, 8 do
        mask[#mask + 1] = z[i] * 128 + z[i + 1] * 64 + z[i + 2] * 32 + z[i + 3] * 16 + z[i + 4] * 8 + z[i + 5] * 4
            + z[i + 6] * 2 + z[i + 7]
    end
    return mask
end

-- A frame of a scrambled line as it was before, or one of a plain line scrambled.
local function unscrambled(s)
    local m, out = line_mask(), {}
    for i = 1, #s, 120 do
        local part = { byte(s, i, i + 119) }
        for x = 1, #part do part[x] = bxor(part[x], m[i + x - 1]) end
        out[#out + 1] = char(unpack(part))
    end
    return concat(out)
end

return {
    FRAME = FRAME, COLUMNS = COLUMNS, FAS = "\246\246\246\040\040\040",
    bxor = bxor, at = at, parity = parity, remainder = remainder, crc16 = crc16, crc32 = crc32,
    line_mask = line_mask, unscrambled = unscrambled,
}

end
