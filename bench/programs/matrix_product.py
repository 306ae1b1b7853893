def main():
    n = 130
    a = [[i + 2 * j for j in range(n)] for i in range(n)]
    b = [[3 * i - j for j in range(n)] for i in range(n)]
    c = [[0] * n for _ in range(n)]
    for i in range(n):
        row, out = a[i], c[i]
        for j in range(n):
            s = 0
            for k in range(n):
                s += row[k] * b[k][j]
            out[j] = s
    print(sum(map(sum, c)))


main()
