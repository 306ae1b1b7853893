local function best(items, room)
  if items == 0 then return 0 end
  local weight, worth = items * 7 % 13 + 5, items * 11 % 17 + 3
  local without = best(items - 1, room)
  if weight > room then return without end
  local with = best(items - 1, room - weight) + worth
  if without < with then return with end
  return without
end
print(best(26, 100))
