-- How fast a kernel is in Lua, or what its variables are after some passes (docs/SPEED.md).
--
-- lua timing.lua NAME STEPS           runs it again and again, and prints how fast that is; a pass stands for so many steps of the module
-- lua timing.lua NAME STEPS PASSES    makes so many passes, and prints the variables
local name, steps, passes = arg[1], tonumber(arg[2]), tonumber(arg[3])
local folder = arg[0]:match("^.*/") or ""
local file, width = name:match("^(%a+)(%d*)$")
local run = assert(loadfile(folder .. file .. ".lua"))(tonumber(width))

local ROUNDS, SHORTEST = 7, 0.2

local function round(times)
    local start = os.clock()
    run(times)
    return os.clock() - start
end

if passes then
    print("registers " .. table.concat({ run(passes) }, " "))
    return
end
local times = 1
local best = round(times)
while best < SHORTEST do
    times = times * 2
    best = round(times)
end
for _ = 2, ROUNDS do
    best = math.min(best, round(times))
end
local done = times * steps
print(string.format("%s %.0f steps/s %.2f ns/step", name, done / best, 1e9 * best / done))
