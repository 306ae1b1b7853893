local n = 50000
local first, column, value, x, y = {}, {}, {}, {}, {}
local k = 0
for i = 0, n - 1 do
  x[i] = i % 7 + 1
  first[i] = k
  local size = i == 0 and 50000 or 2
  for j = 0, size - 1 do
    column[k] = (i + j * 13) % n
    value[k] = (i + j) % 5
    k = k + 1
  end
end
first[n] = k
for turn = 1, 40 do
  for i = 0, n - 1 do
    local s = 0
    for p = first[i], first[i + 1] - 1 do s = s + value[p] * x[column[p]] end
    y[i] = s
  end
end
local g = 0
for i = 0, n - 1 do g = g + y[i] * (i % 3 + 1) end
print(g)
