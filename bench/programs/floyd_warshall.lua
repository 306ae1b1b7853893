local n = 320
local d = {}
for i = 0, n - 1 do
  d[i] = {}
  for j = 0, n - 1 do d[i][j] = (i * 17 + j * 31) % 1009 + 1 end
  d[i][i] = 0
end
for k = 0, n - 1 do
  local r = {}
  for j = 0, n - 1 do r[j] = d[k][j] end
  for i = 0, n - 1 do
    local row = d[i]
    local through = row[k]
    for j = 0, n - 1 do
      local way = through + r[j]
      if way < row[j] then row[j] = way end
    end
  end
end
local s = 0
for i = 0, n - 1 do
  for j = 0, n - 1 do s = s + d[i][j] end
end
print(s)
