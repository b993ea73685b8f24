-- The kernels memory1, memory2 and memory4: what their modules compute, in Lua. A pass goes once over all 4,096 bytes. Memory is a
-- table whose elements have the width of an access, as a program in Lua would have it.
local width = ...
local cells = 4096 // width
local mask = (1 << 8 * width) - 1

return function(passes)
    local memory = {}
    for k = 0, cells - 1 do
        memory[k] = 0
    end
    local sum, x, at = 0, 0, 0
    for _ = 1, passes do
        repeat
            x = memory[at]
            sum = sum + x & 0xFFFFFFFF
            memory[at] = sum & mask
            x = memory[at + 1]
            sum = sum ~ x
            memory[at + 1] = sum & mask
            at = at + 2
        until not (at < cells)
        at = 0
        sum = sum + 2654435769 & 0xFFFFFFFF
    end
    return sum, x, at
end
