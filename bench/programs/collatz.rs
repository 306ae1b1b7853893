fn main() {
    let mut longest = 0_i64;
    for i in 1..30_000_i64 {
        let (mut n, mut steps) = (i, 0);
        while 1 < n {
            n = if n % 2 == 0 { n / 2 } else { 3 * n + 1 };
            steps += 1;
        }
        longest = longest.max(steps);
    }
    println!("{longest}");
}
