fn main() {
    let n = 320;
    let mut d = vec![vec![0_i64; n]; n];
    for i in 0..n {
        for j in 0..n {
            d[i][j] = ((i * 17 + j * 31) % 1009 + 1) as i64;
        }
        d[i][i] = 0;
    }
    for k in 0..n {
        let r = d[k].clone();
        for i in 0..n {
            let through = d[i][k];
            for j in 0..n {
                let way = through + r[j];
                if way < d[i][j] {
                    d[i][j] = way;
                }
            }
        }
    }
    println!("{}", d.iter().flatten().sum::<i64>());
}
