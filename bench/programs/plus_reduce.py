def main():
    a = [i % 1000 for i in range(2000000)]
    s = 0
    for i in range(2000000):
        s += a[i]
    print(s)


main()
