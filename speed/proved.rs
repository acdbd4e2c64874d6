// The proved side: the functions that `crates/exports` exports, wrapped so that each call keeps to what it promises.
// A slice crosses as its address and its length.

mod exported {
    extern "C" {
        pub fn decide_many(mpu: *const u32, mpus: usize, asks: *const u32, asked: usize, cases: *mut u32, cased: usize) -> u32;
        pub fn fill_many(requests: *const u32, requested: usize, numbers: *mut u32, numbered: usize);
        pub fn switch_many(
            requests: *const u32,
            requested: usize,
            mpu: *const u32,
            mpus: usize,
            parts: *const u32,
            parted: usize,
            numbers: *mut u32,
            numbered: usize,
            last: *mut u32,
            lasts: usize,
        );
        pub fn list_many(words: *const u32, worded: usize, count: u32, answers: *mut u32, answered: usize);
    }
}

/// The words of an MPU, and of a whole switch: the MPU, then the log.
pub const MPU: usize = 17;
pub const SWITCH: usize = MPU + 30;
/// The words of a request, and of the answer about a list.
pub const REQUEST: usize = 4;
pub const FOUND: usize = 3;

/// The exported function reads 0 beyond the end of a slice; a caller here has made a mistake.
fn same(what: &str, has: usize, wants: usize) {
    assert!(has == wants, "{what}: {has} words, not {wants}");
}

pub fn decide(mpu: &[u32], asks: &[u32], cases: &mut [u32]) -> u32 {
    same("an MPU", mpu.len(), MPU);
    same("accesses", asks.len(), 2 * cases.len());
    // The three slices are alive for the call, and the one that is written overlaps no other: Rust's own rule for `&mut`.
    unsafe { exported::decide_many(mpu.as_ptr(), mpu.len(), asks.as_ptr(), asks.len(), cases.as_mut_ptr(), cases.len()) }
}

pub fn fill(requests: &[u32], numbers: &mut [u32]) {
    same("requests", requests.len(), REQUEST * numbers.len());
    unsafe { exported::fill_many(requests.as_ptr(), requests.len(), numbers.as_mut_ptr(), numbers.len()) }
}

pub fn switch(requests: &[u32], mpu: &[u32], parts: &[u32], numbers: &mut [u32], last: &mut [u32]) {
    same("requests", requests.len() % REQUEST, 0);
    same("an MPU", mpu.len(), MPU);
    same("numbers", numbers.len(), parts.len());
    same("a switch", last.len(), SWITCH);
    unsafe {
        exported::switch_many(
            requests.as_ptr(),
            requests.len(),
            mpu.as_ptr(),
            mpu.len(),
            parts.as_ptr(),
            parts.len(),
            numbers.as_mut_ptr(),
            numbers.len(),
            last.as_mut_ptr(),
            last.len(),
        )
    }
}

pub fn lists(words: &[u32], count: u32, answers: &mut [u32]) {
    same("answers", answers.len() % FOUND, 0);
    same("lists", words.len(), 3 * count as usize * (answers.len() / FOUND));
    unsafe { exported::list_many(words.as_ptr(), words.len(), count, answers.as_mut_ptr(), answers.len()) }
}
