//! A `main` with a `String`, a `Vec`, an `Option`, a `Box` and a closure, stopped after all of them:
//!
//!     rustc -g -C dwarf-version=5 app.rs && gdb -q -batch -x gdb-commands.txt ./app
fn main() {
    let title = String::from("gauge");
    let levels: Vec<u16> = vec![3, 5, 8];
    let last = levels.last();
    let limit = Box::new(40_u32);
    let unit = Some('m');
    let is_high = |level: u16| u32::from(level) > *limit;
    println!("{title} {levels:?} {last:?} {limit} {unit:?} {}", is_high(8));
}
