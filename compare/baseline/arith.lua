-- The kernel arith: what its module computes, in Lua. A pass is a thousand turns of its loop.
return function(passes)
    local x, y, t, i = 0, 0, 0, 0
    for _ = 1, passes do
        repeat
            x = x * 1664525 & 0xFFFFFFFF
            x = x + 1013904223 & 0xFFFFFFFF
            t = x << 13 & 0xFFFFFFFF
            y = y ~ t
            t = x >> 17
            y = y ~ t
            t = ((x ~ 0x80000000) - 0x80000000) // 32 & 0xFFFFFFFF
            y = y + t & 0xFFFFFFFF
            i = i + 1
        until not (i < 1000)
        i = 0
    end
    return x, y, t, i
end
