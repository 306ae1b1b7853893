def best(items, room):
    if items == 0:
        return 0
    weight, worth = items * 7 % 13 + 5, items * 11 % 17 + 3
    without = best(items - 1, room)
    if weight > room:
        return without
    with_it = best(items - 1, room - weight) + worth
    return with_it if without < with_it else without


print(best(26, 100))
