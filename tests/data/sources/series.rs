#![no_std]
#![crate_type = "lib"]

#[no_mangle]
pub fn sum(values: &[i32]) -> i32 {
    values.iter().sum()
}

#[no_mangle]
pub fn longest_run(values: &[i32]) -> usize {
    let mut best = 0;
    let mut run = 0;
    let mut last = None;
    for value in values {
        run = if last == Some(value) { run + 1 } else { 1 };
        best = best.max(run);
        last = Some(value);
    }
    best
}
