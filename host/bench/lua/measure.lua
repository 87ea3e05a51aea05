-- One formula over one recording, as one would write it in Lua by hand: a loop for each member, and a closure for f.
--
--     lua5.4 measure.lua text|loaded REPETITIONS READINGS FORMULA
--
-- READINGS are parted by blanks, and FORMULA is a chunk that returns a number or a window. Prints the nanoseconds of an evaluation, the best
-- of three batches, and the value: a number, or a window's start and length. An evaluation loads the text and runs it, or runs what was
-- loaded once before.

local mode, repetitions, readings, text = arg[1], tonumber(arg[2]), {}, arg[4]
for reading in arg[3]:gmatch("%S+") do readings[#readings + 1] = tonumber(reading) end

data = { start = 0, length = #readings }

function skip(w, n)
  local k = math.min(n, w.length)
  return { start = w.start + k, length = w.length - k }
end

function take(w, n) return { start = w.start, length = math.min(n, w.length) } end

function count(w) return w.length end

function sum(w)
  local total = 0
  for i = w.start + 1, w.start + w.length do total = total + readings[i] end
  return total
end

function least(w)
  local best = readings[w.start + 1]
  for i = w.start + 2, w.start + w.length do
    if readings[i] < best then best = readings[i] end
  end
  return best
end

function greatest(w)
  local best = readings[w.start + 1]
  for i = w.start + 2, w.start + w.length do
    if readings[i] > best then best = readings[i] end
  end
  return best
end

function countWhere(w, f)
  local n = 0
  for i = w.start + 1, w.start + w.length do
    if f(readings[i]) then n = n + 1 end
  end
  return n
end

function longestRun(w, f)
  local best, now = 0, 0
  for i = w.start + 1, w.start + w.length do
    now = f(readings[i]) and now + 1 or 0
    if now > best then best = now end
  end
  return best
end

function sumBy(w, f)
  local total = 0
  for i = w.start + 1, w.start + w.length do total = total + f(readings[i]) end
  return total
end

-- Takes one reading in and lets one out at each step.
function bestSum(w, n)
  local total = 0
  for i = w.start + 1, w.start + n do total = total + readings[i] end
  local best = total
  for i = w.start + n + 1, w.start + w.length do
    total = total + readings[i] - readings[i - n]
    if total > best then best = total end
  end
  return best
end

-- Rounded down, as div is.
function div(a, b) return math.floor(a / b) end

local formula = assert(load(text))
local evaluate = mode == "loaded" and formula or function() return load(text)() end

local function batch()
  local value
  local begun = os.clock()
  for _ = 1, repetitions do value = evaluate() end
  return (os.clock() - begun) / repetitions * 1e9, value
end

-- LuaJIT compiles the formula, but must not merge one evaluation with the next.
if jit then jit.off(batch) end

-- The first batch may also pay for compiling.
local best, value = math.huge, nil
for _ = 1, 3 do
  local nanoseconds
  nanoseconds, value = batch()
  best = math.min(best, nanoseconds)
end
local shown = type(value) == "table" and value.start .. " " .. value.length or string.format("%d", value)
print(string.format("%.1f %s", best, shown))
