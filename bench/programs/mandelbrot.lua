-- division that truncates
local function over(a, b)
  if a < 0 then return -(-a // b) end
  return a // b
end
local inside = 0
for i = 0, 299 do
  for j = 0, 299 do
    local a, b, x, y, n = i * 13 - 3000, j * 13 - 2000, 0, 0, 0
    while n < 100 and x * x + y * y < 4000000 do
      local z = over(x * x - y * y, 1000) + a
      y = over(2 * x * y, 1000) + b
      x = z
      n = n + 1
    end
    if n == 100 then inside = inside + 1 end
  end
end
print(inside)
