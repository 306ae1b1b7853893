def main():
    n = 320
    d = [[(i * 17 + j * 31) % 1009 + 1 for j in range(n)] for i in range(n)]
    for i in range(n):
        d[i][i] = 0
    for k in range(n):
        r = d[k][:]
        for i in range(n):
            row = d[i]
            through = row[k]
            for j in range(n):
                way = through + r[j]
                if way < row[j]:
                    row[j] = way
    print(sum(map(sum, d)))


main()
