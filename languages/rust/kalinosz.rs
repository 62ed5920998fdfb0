// Kalinosz for Rust: safe calls on slices. Copy this file beside your own and say `mod kalinosz;`; link with `-l kalinosz`.
// Limits and answer numbers: docs/CALLING.md. Overlapping buffers and false lengths, which C must look out for, cannot be written here.
#![allow(dead_code)]

/// What every call returns: the answer number, and the count, visits and position that go with it.
#[repr(C)]
#[derive(Clone, Copy, Debug, PartialEq, Eq)]
pub struct Reply {
    pub number: i64,
    pub count: i64,
    pub visits: i64,
    pub position: i64,
}

/// Where a table's segments stand in its cells: coordinate j of position i in cell base + i * segment_stride + j * coordinate_stride.
#[derive(Clone, Copy, Debug)]
pub struct Descriptor {
    pub kind: i64,
    pub base: i64,
    pub lower: i64,
    pub n: i64,
    pub segment_stride: i64,
    pub coordinate_stride: i64,
}

/// a..b in x by c..d in y; all four edges belong to it.
#[derive(Clone, Copy, Debug)]
pub struct Window {
    pub a: i64,
    pub b: i64,
    pub c: i64,
    pub d: i64,
}

mod c {
    use super::Reply;
    extern "C" {
        pub fn kalinosz_scan(
            table: *const i32, length: usize,
            kind: i64, base: i64, lower: i64, n: i64, segment_stride: i64, coordinate_stride: i64,
            a: i64, b: i64, c: i64, d: i64,
            numbers: *mut i32, cells: usize,
        ) -> Reply;
        pub fn kalinosz_build(
            table: *const i32, length: usize,
            kind: i64, base: i64, lower: i64, n: i64, segment_stride: i64, coordinate_stride: i64,
            index: *mut i32, words: usize,
        ) -> Reply;
        pub fn kalinosz_query(
            index: *const i32, words: usize, a: i64, b: i64, c: i64, d: i64, numbers: *mut i32, cells: usize,
        ) -> Reply;
        pub fn kalinosz_words(n: i64) -> i64;
        pub fn kalinosz_meets(x1: i64, y1: i64, x2: i64, y2: i64, a: i64, b: i64, c: i64, d: i64) -> i64;
    }
}

/// The numbers of all segments that meet the window, ascending, into the first `count` cells of `numbers`.
pub fn scan(table: &[i32], at: Descriptor, w: Window, numbers: &mut [i32]) -> Reply {
    unsafe {
        c::kalinosz_scan(
            table.as_ptr(), table.len(),
            at.kind, at.base, at.lower, at.n, at.segment_stride, at.coordinate_stride,
            w.a, w.b, w.c, w.d,
            numbers.as_mut_ptr(), numbers.len(),
        )
    }
}

/// The index of a table of horizontal and vertical segments into the first `words(n)` words of `index`.
pub fn build(table: &[i32], at: Descriptor, index: &mut [i32]) -> Reply {
    unsafe {
        c::kalinosz_build(
            table.as_ptr(), table.len(),
            at.kind, at.base, at.lower, at.n, at.segment_stride, at.coordinate_stride,
            index.as_mut_ptr(), index.len(),
        )
    }
}

/// The numbers of the segments that meet the window, each once, into the first `count` cells of `numbers`.
pub fn query(index: &[i32], w: Window, numbers: &mut [i32]) -> Reply {
    unsafe { c::kalinosz_query(index.as_ptr(), index.len(), w.a, w.b, w.c, w.d, numbers.as_mut_ptr(), numbers.len()) }
}

/// How many words the index of n segments takes, or -3.
pub fn words(n: i64) -> i64 {
    unsafe { c::kalinosz_words(n) }
}

/// Whether one segment (x1, y1, x2, y2) meets one window: 1 or 0, or -8, -5.
pub fn meets(segment: [i64; 4], w: Window) -> i64 {
    let [x1, y1, x2, y2] = segment;
    unsafe { c::kalinosz_meets(x1, y1, x2, y2, w.a, w.b, w.c, w.d) }
}
