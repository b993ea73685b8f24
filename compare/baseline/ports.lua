-- The kernel ports: what its module computes, in Lua, with the axis. A pass is a thousand turns of its loop.
local axis = { [0] = 0, [1] = 50, [2] = 0, [3] = 0 }
local low = { [0] = 0, [1] = 1 }
local high = { [0] = 3000, [1] = 500 }

local function put(port, value)
    if not axis[port] then
        error("no port")
    elseif not low[port] then
        error("a sense port")
    elseif value < low[port] or value > high[port] then
        error("out of limits")
    end
    axis[port] = value
end

local function get(port)
    return axis[port] or error("no port")
end

local function tick()
    local ordered, ramp, speed = axis[0], axis[1], axis[2]
    if speed < ordered then
        local missing = ordered - speed
        speed = speed + (missing < ramp and missing or ramp)
    else
        local over = speed - ordered
        speed = speed - (over < ramp and over or ramp)
    end
    axis[2] = speed
    axis[3] = axis[3] + speed & 0xFFFFFFFF
end

return function(passes)
    local order, speed, position, i = 0, 0, 0, 0
    for _ = 1, passes do
        repeat
            put(0, order)
            tick()
            speed = get(2)
            position = get(3)
            order = position & 2047
            order = order + 1 & 0xFFFFFFFF
            i = i + 1
        until not (i < 1000)
        i = 0
    end
    return order, speed, position, i
end
