local n = 130
local a, b, c = {}, {}, {}
for i = 0, n - 1 do
  a[i], b[i], c[i] = {}, {}, {}
  for j = 0, n - 1 do
    a[i][j] = i + 2 * j
    b[i][j] = 3 * i - j
  end
end
for i = 0, n - 1 do
  local row, out = a[i], c[i]
  for j = 0, n - 1 do
    local s = 0
    for k = 0, n - 1 do s = s + row[k] * b[k][j] end
    out[j] = s
  end
end
local s = 0
for i = 0, n - 1 do
  for j = 0, n - 1 do s = s + c[i][j] end
end
print(s)
