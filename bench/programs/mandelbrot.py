def main():
    inside = 0
    for i in range(300):
        for j in range(300):
            a, b, x, y, n = i * 13 - 3000, j * 13 - 2000, 0, 0, 0
            while n < 100 and x * x + y * y < 4000000:
                d = x * x - y * y
                z = (d // 1000 if d >= 0 else -(-d // 1000)) + a
                d = 2 * x * y
                y = (d // 1000 if d >= 0 else -(-d // 1000)) + b
                x = z
                n += 1
            if n == 100:
                inside += 1
    print(inside)


main()
