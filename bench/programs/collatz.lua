local longest = 0
for i = 1, 29999 do
  local n, steps = i, 0
  while 1 < n do
    if n % 2 == 0 then n = n // 2 else n = 3 * n + 1 end
    steps = steps + 1
  end
  if longest < steps then longest = steps end
end
print(longest)
