-- The kernel calls: what its module computes, in Lua. A pass is a thousand turns of its loop.
local function following(a, b)
    a, b = b, a
    b = b + a & 0xFFFFFFFF
    return a, b
end

return function(passes)
    local a, b, i = 0, 1, 0
    for _ = 1, passes do
        repeat
            a, b = following(a, b)
            i = i + 1
        until not (i < 1000)
        i = 0
    end
    return a, b, i
end
