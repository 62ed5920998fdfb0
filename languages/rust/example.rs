// Kalinosz from Rust: builds the index of three marks and asks which of them meet a window.
// rustc --edition 2021 example.rs -L PREFIX/lib -l static=kalinosz
mod kalinosz;
use kalinosz::{build, query, words, Descriptor, Window};

fn main() {
    // The plate was read from its far end: mark 1 stands in cells 8 to 11, mark 2 four cells below it, mark 3 first.
    // So mark 1 is the base, and the step from mark to mark is -4.
    let plate = [9, 9, 9, 9, 4, 0, 4, 5, 0, 2, 6, 2];
    let marks = Descriptor { kind: 1, base: 8, lower: 1, n: 3, segment_stride: -4, coordinate_stride: 1 };

    let mut index = vec![0; words(marks.n) as usize];
    let built = build(&plate, marks, &mut index);
    println!("build: answer {}, {} words", built.number, built.count);

    // Mark 1, (0,2)-(6,2), crosses this window from side to side: neither of its ends lies inside. Mark 2 crosses it upwards.
    let mut numbers = vec![0; marks.n as usize];
    let asked = query(&index, Window { a: 3, b: 5, c: 1, d: 3 }, &mut numbers);
    let listed: Vec<String> = numbers[..asked.count as usize].iter().map(i32::to_string).collect();
    println!("query: answer {}, {} met, {} visits, numbers {}", asked.number, asked.count, asked.visits, listed.join(" "));
}
