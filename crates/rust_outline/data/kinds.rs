#!/usr/bin/env run
#![no_std]
//! All kinds of items.

/// Imports.
pub use a::{b as c, d::{self, *}, crate_};
use ::{e, r#fn};
use super::f as _;
extern crate alloc;
extern crate self as own;
unsafe extern "C" {
    #![allow(dead_code)]
    pub safe fn print(text: *const u8, ...);
    static mut COUNT: [u8; { 1 + 2 }];
    type Opaque;
}
pub(crate) const extern "C" fn g<T: Fn(u8) -> Vec<Vec<u8>>, const N: usize>(_: T) -> u8
where
    [(); N]:,
{
    //! Of the function, and read with its body.
    0
}
pub(in super::super) struct Unit;
struct Record<T = Vec<u8>> where T: Sized { a: T }
pub struct Tuple(pub u8, pub(crate) Vec<(u8, u16)>, pub (crate::A), #[b] C);
union Bits { a: u8, b: u16 }
enum E { A, B(u8), C { a: u8 } = 3, #[x] D = { 4 } }
const _: () = { let a = 1; () };
const fn h() {}
pub static mut S: &str = "\u{7d}";
unsafe auto trait Marker: Sized {}
trait Named { type T: Sized; const N: u8 = 1; fn f(&self); call!(); }
trait Both = Sized + Copy;
impl<T> Named for Vec<T> where T: for<'a> Fn(&'a u8) { type T = u8; fn f(&self) {} }
impl dyn for<'a> Fn(&'a u8) {}
type Pair<T> = (T, T);
mod inner {
    #![doc = "inner"]
    mod deep { fn a() {} }
    mod file;
}
thread_local!(static A: u8 = 0);
crate::m::make! { struct S; }
macro_rules! rules { ($($a:tt)*) => { $($a)* } }
macro two($a:ident) { struct $a; }
macro three { () => {} }
union!();
async unsafe fn union() {}
/** Of the last one. */ default impl Unit {}
