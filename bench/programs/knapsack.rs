fn best(items: i64, room: i64) -> i64 {
    if items == 0 {
        return 0;
    }
    let (weight, worth) = (items * 7 % 13 + 5, items * 11 % 17 + 3);
    let without = best(items - 1, room);
    if weight > room {
        return without;
    }
    without.max(best(items - 1, room - weight) + worth)
}

fn main() {
    println!("{}", best(std::hint::black_box(26), 100));
}
