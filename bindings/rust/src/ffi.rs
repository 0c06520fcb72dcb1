//! The archive's functions, as `crates/buulset/src/lib.rt` declares them (`bindings/declarations.py` compares the two).
//! All that is unsafe in this crate stands here.
//!
//! Each call is safe for one reason: a pointer is passed with the length of the slice that it comes from, and a `&mut`
//! slice overlaps no other argument. That is all that the proofs assume of a caller.
#![allow(unsafe_code)]

#[repr(C)]
#[derive(Clone, Copy)]
pub struct Answer {
    pub refused: u8,
    pub spent: u8,
    pub value: i32,
    pub place: usize,
    pub count: usize,
    pub root_move: usize,
    pub steps: usize,
}

#[repr(C)]
#[derive(Clone, Copy)]
pub struct Choice {
    pub refused: u8,
    pub chosen: u8,
    pub place: usize,
    pub count: usize,
}

#[repr(C)]
#[derive(Clone, Copy)]
pub struct Children {
    pub first: usize,
    pub count: usize,
}

#[repr(C)]
#[derive(Clone, Copy)]
pub struct Line {
    pub bytes: [u8; 6],
    pub read: u8,
    pub at: usize,
}

#[repr(C)]
#[derive(Clone, Copy)]
pub struct Text {
    pub bytes: [u8; 256],
    pub length: usize,
}

/// Declares functions of the archive by what they take in Rattle, and makes each a safe function: a slice goes over as
/// its pointer and its length, a number as it is.
macro_rules! exported {
    ($(fn $f:ident($($parameters:tt)*) -> $r:ty;)*) => { $(exported!(@ $f $r; [] [] [] $($parameters)*,);)* };
    (@ $f:ident $r:ty; [$($taken:tt)*] [$($declared:tt)*] [$($passed:tt)*] $(,)?) => {
        pub fn $f($($taken)*) -> $r {
            extern "C" {
                #[link_name = concat!("buulset_", stringify!($f))]
                fn function($($declared)*) -> $r;
            }
            unsafe { function($($passed)*) }
        }
    };
    (@ $f:ident $r:ty; [$($taken:tt)*] [$($declared:tt)*] [$($passed:tt)*] $x:ident: &[$t:ty], $($rest:tt)*) => {
        exported!(@ $f $r; [$($taken)* $x: &[$t],] [$($declared)* _: *const $t, _: usize,]
            [$($passed)* $x.as_ptr(), $x.len(),] $($rest)*);
    };
    (@ $f:ident $r:ty; [$($taken:tt)*] [$($declared:tt)*] [$($passed:tt)*] $x:ident: &mut [$t:ty], $($rest:tt)*) => {
        exported!(@ $f $r; [$($taken)* $x: &mut [$t],] [$($declared)* _: *mut $t, _: usize,]
            [$($passed)* $x.as_mut_ptr(), $x.len(),] $($rest)*);
    };
    (@ $f:ident $r:ty; [$($taken:tt)*] [$($declared:tt)*] [$($passed:tt)*] $x:ident: $t:ty, $($rest:tt)*) => {
        exported!(@ $f $r; [$($taken)* $x: $t,] [$($declared)* _: $t,] [$($passed)* $x,] $($rest)*);
    };
}

exported! {
    fn version() -> u32;
    fn read(file: &[u8], table: &mut [u8]) -> Answer;
    fn read_line(file: &[u8], at: usize) -> Line;
    fn digit(byte: u8) -> u8;
    fn write(table: &[u8], file: &mut [u8]) -> Answer;
    fn convert(file: &[u8], converted: &mut [u8]) -> Answer;
    fn capitals(file: &[u8], printed: &mut [u8]) -> Answer;
    fn check(table: &[u8]) -> Answer;
    fn children(table: &[u8], node: usize) -> Children;
    fn alphabeta(table: &[u8], evaluated: &mut [u8], certificate: &mut [u8], order: &mut [u16]) -> Answer;
    fn plain(table: &[u8], evaluated: &mut [u8], certificate: &mut [u8]) -> Answer;
    fn mtd(table: &[u8], evaluated: &mut [u8], certificate: &mut [u8], order: &mut [u16]) -> Answer;
    fn mtdf(table: &[u8], start: i32, evaluated: &mut [u8], certificate: &mut [u8], order: &mut [u16]) -> Answer;
    fn sss(table: &[u8], evaluated: &mut [u8], certificate: &mut [u8], order: &mut [u16], allowance: usize) -> Answer;
    fn line(table: &[u8], line: &mut [u16]) -> Answer;
    fn verify(table: &[u8], certificate: &[u8]) -> Answer;
    fn shorter(table: &[u8], first: &[u8], second: &[u8]) -> Choice;
    fn graft(first: &[u8], node: usize, second: &[u8], result: &mut [u8]) -> Answer;
    fn least_value(table: &[u8], node: usize, wanted: i32) -> Answer;
    fn fill(table: &mut [u8]) -> Answer;
    fn least_leaves(width: usize, depth: usize) -> Answer;
    fn report(file: &[u8]) -> Text;
    fn refused(number: u8, place: usize) -> Text;
}
