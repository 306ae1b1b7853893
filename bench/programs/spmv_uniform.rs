fn size(i: i64) -> i64 {
    20 + 0 * i
}

fn main() {
    let n = 10000_i64;
    let (mut first, mut column, mut value) = (vec![0], Vec::new(), Vec::new());
    let x: Vec<i64> = (0..n).map(|i| i % 7 + 1).collect();
    for i in 0..n {
        for j in 0..size(i) {
            column.push((i + j * 13) % n);
            value.push((i + j) % 5);
        }
        first.push(column.len());
    }
    let mut y = vec![0_i64; n as usize];
    for _turn in 0..40 {
        for i in 0..n as usize {
            let mut s = 0_i64;
            for p in first[i]..first[i + 1] {
                s = s.wrapping_add(value[p] * x[column[p] as usize]);
            }
            y[i] = s;
        }
    }
    let mut g = 0_i64;
    for i in 0..n {
        g += y[i as usize] * (i % 3 + 1);
    }
    println!("{g}");
}
