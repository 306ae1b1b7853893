// The same loads as `bench_machine marks`, on cells in a vector with the marks in a queue beside them: a
// mark is sought from the newest on, and a cut looks at each mark.
use std::collections::VecDeque;

#[derive(Clone, Copy)]
#[allow(dead_code)]
enum Word { Int(i64), Label(u32), Rec(u32), Nil }

#[derive(Clone, Copy)]
#[allow(dead_code)]
struct Mark { at: u64, base: u64, cells: u64, split: u32 }

struct Stack { cells: Vec<Word>, marks: VecDeque<Mark> }

impl Stack {
    fn mark(&mut self, mark: Mark) -> bool {
        if mark.base + mark.cells > self.cells.len() as u64 || mark.at - mark.base >= mark.cells {
            return false;
        }
        if self.marks.back().is_some_and(|newest| newest.at >= mark.at) {
            return false;
        }
        self.marks.push_back(mark);
        true
    }

    fn unmark(&mut self, at: u64) -> bool {
        for k in (0..self.marks.len()).rev() {
            if self.marks[k].at == at {
                self.marks.remove(k);
                return true;
            }
            if self.marks[k].at < at {
                return false;
            }
        }
        false
    }

    /// The cut of a loop at the lowest cell: the rest, the left and the child.
    fn cut(mut self, high: usize) -> (Stack, Stack, Stack) {
        let child = self.cells[..high].to_vec();
        let left = self.cells.clone();
        let child_marks = VecDeque::with_capacity(high);
        let rest_marks = VecDeque::with_capacity(high);
        self.cells.truncate(high);
        self.marks.retain(|_| true);
        (
            Stack { cells: self.cells, marks: rest_marks },
            Stack { cells: left, marks: self.marks },
            Stack { cells: child, marks: child_marks },
        )
    }
}

fn mark_all(stack: &mut Stack) {
    for k in 0..1000 {
        let base = u64::from(k) * 100;
        assert!(stack.mark(Mark { at: base + 3, base, cells: 100, split: k }));
    }
}

fn main() {
    let mut words = std::env::args().skip(1);
    let name = words.next().unwrap_or_default();
    let times: u32 = words.next().and_then(|word| word.parse().ok()).unwrap_or(0);
    let mut stack = Stack { cells: vec![Word::Nil; 100_000], marks: VecDeque::with_capacity(100_000) };
    stack.cells[3] = Word::Int(7);
    stack.cells[99_903] = Word::Int(8);
    let last = if name == "cuts" { 99_903 } else { 3 };
    if name == "cuts" {
        mark_all(&mut stack);
    }
    for _ in 0..times {
        if name == "cuts" {
            stack = std::hint::black_box(stack.cut(100)).1;
        } else {
            mark_all(&mut stack);
            for k in 0..1000 {
                assert!(stack.unmark(k * 100 + 3));
            }
        }
    }
    match stack.cells[last] {
        Word::Int(number) => println!("{number}"),
        _ => println!("0"),
    }
}
