fn main() {
    let a: Vec<i64> = (0..2_000_000).map(|i| i % 1000).collect();
    let mut s = 0_i64;
    for number in &a {
        s = s.wrapping_add(*number);
    }
    println!("{s}");
}
