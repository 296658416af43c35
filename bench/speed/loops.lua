-- What the reports of run.sh answer, in Lua 5.4: so many times the same run.
-- usage: loops.lua lines|records|iterations|calls SIZE RUNS

local function lines(rows)
  local total, best, best_row = 0, nil, nil
  for number, row in ipairs(rows) do
    local value = row.qty * row.price
    total = total + value
    if not best or value > best then best, best_row = value, number end
  end
  return string.format("result %d\ntotal %d\ntop %d %d", total, total, best, best_row)
end

-- The same, where what each row read and gave is kept.
local function records(rows)
  local total, best, best_row, kept = 0, nil, nil, {}
  for number, row in ipairs(rows) do
    local qty, price = row.qty, row.price
    local value = qty * price
    kept[number] = { value = value, qty = qty, price = price, total = value, top = value, row = number }
    total = total + value
    if not best or value > best then best, best_row = value, number end
  end
  return string.format("result %d\ntotal %d\ntop %d %d", total, total, best, best_row)
end

local function one(sums, i)
  local x = i * 3
  local y = x + i
  sums.a = sums.a + x
  sums.b = sums.b + y
end

local function iterations(count)
  local sums = { a = 0, b = 0 }
  for i = 0, count - 1 do one(sums, i) end
  return string.format("result 0\na %d\nb %d", sums.a, sums.b)
end

local function fib(n)
  if n < 2 then return n end
  return fib(n - 1) + fib(n - 2)
end

local function calls(n) return string.format("result %d", fib(n)) end

local name, size, runs = arg[1], tonumber(arg[2]), tonumber(arg[3])
local run = ({ lines = lines, records = records, iterations = iterations, calls = calls })[name]
local input = size
if name == "lines" or name == "records" then
  input = {}
  for number = 1, size do input[number] = { qty = number, price = 7 } end
end
for number = 1, runs do print("run " .. number .. "\n" .. run(input)) end
