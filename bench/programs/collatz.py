def main():
    longest = 0
    for i in range(1, 30000):
        n, steps = i, 0
        while 1 < n:
            n = n // 2 if n % 2 == 0 else 3 * n + 1
            steps += 1
        longest = max(longest, steps)
    print(longest)


main()
