fn main() {
    let mut inside = 0;
    for i in 0..300_i64 {
        for j in 0..300_i64 {
            let (a, b) = (i * 13 - 3000, j * 13 - 2000);
            let (mut x, mut y, mut n) = (0_i64, 0_i64, 0);
            while n < 100 && x * x + y * y < 4_000_000 {
                let z = (x * x - y * y) / 1000 + a;
                y = 2 * x * y / 1000 + b;
                x = z;
                n += 1;
            }
            if n == 100 {
                inside += 1;
            }
        }
    }
    println!("{inside}");
}
