fn main() {
    let n = 130;
    let a: Vec<Vec<i64>> = (0..n).map(|i| (0..n).map(|j| i + 2 * j).collect()).collect();
    let b: Vec<Vec<i64>> = (0..n).map(|i| (0..n).map(|j| 3 * i - j).collect()).collect();
    let n = n as usize;
    let mut c = vec![vec![0_i64; n]; n];
    for i in 0..n {
        for j in 0..n {
            let mut s = 0_i64;
            for k in 0..n {
                s = s.wrapping_add(a[i][k] * b[k][j]);
            }
            c[i][j] = s;
        }
    }
    println!("{}", c.iter().flatten().sum::<i64>());
}
