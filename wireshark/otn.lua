-- Wireshark plugin for line files: OTU2 and OTU3 frames, plain or scrambled, one row a frame, down to client packets.
--
--   tshark -X lua_script:wireshark/otn.lua -r line-0.out      or a copy of this folder in "Personal Lua Plugins"
--
-- This file loads the others, in the folder otn beside it. Each of those is a function of `part`, which gives what
-- another one of them gives, and does nothing before it is called: Wireshark loads every Lua file of a plugin folder
-- by itself. docs/WIRESHARK.md says how to use all this, docs/FORMATS.md has the rules of frames, turns and sinks.
-- Frames are counted from 0, turns (multiframes) from 1, slots and ports from 1.

local source = debug.getinfo(1, "S").source:gsub("^@", "")
local folder = source:match("^(.*[/\\])") or ""
local loaded = {}

local function part(name)
    if not loaded[name] then loaded[name] = assert(loadfile(folder .. "otn/" .. name .. ".lua"))()(part) end
    return loaded[name]
end

part("reader")
part("tree")
part("client_rows")
