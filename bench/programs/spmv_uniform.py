def main():
    n = 10000
    first, column, value = [0], [], []
    x = [i % 7 + 1 for i in range(n)]
    y = [0] * n
    for i in range(n):
        size = 20
        for j in range(size):
            column.append((i + j * 13) % n)
            value.append((i + j) % 5)
        first.append(len(column))
    for _ in range(40):
        for i in range(n):
            s = 0
            for p in range(first[i], first[i + 1]):
                s += value[p] * x[column[p]]
            y[i] = s
    g = 0
    for i in range(n):
        g += y[i] * (i % 3 + 1)
    print(g)


main()
