-- The two codes of crates/bench_machine as plain Lua, so many times: the sum of the squares of a table of
-- 1000 by 1000 sevens, which is made once, and fib of 24. Prints the last result.
local name, times = arg[1], tonumber(arg[2])

local function fib(n)
  if n < 2 then return n end
  return fib(n - 1) + fib(n - 2)
end

local function sum(a)
  local s = 0
  for i = 1, #a do
    for j = 1, #a[i] do s = s + a[i][j] * a[i][j] end
  end
  return s
end

local rows = {}
if name == "sum" then
  for i = 1, 1000 do
    rows[i] = {}
    for j = 1, 1000 do rows[i][j] = 7 end
  end
end

local result
for _ = 1, times do
  if name == "fib" then result = fib(24) else result = sum(rows) end
end
print(result)
