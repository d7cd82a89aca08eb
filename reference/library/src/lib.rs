//! The proved main call and check, for Rust: safe functions over the static library's `cse_call` and `cse_check`.

/// The five numbers of a call; number 0 is success, and a refusal has 1 to 14 or 16, as README.md lists them, and zeros for
/// the last three.
#[derive(Clone, Copy, PartialEq, Eq, Debug, Default)]
pub struct Numbers {
    pub number: u32,
    pub place: u32,
    pub written_length: u32,
    pub symbols: u32,
    pub readings: u32,
}

/// What a check says of a forest; number 0 is an accepted one, with place 0, and a refusal has 1 to 10 or 16.
#[derive(Clone, Copy, PartialEq, Eq, Debug, Default)]
pub struct Checked {
    pub number: u32,
    pub place: u32,
}

/// Fewer work words than this are refused with 1.
pub const WORK_WORDS: usize = 16_384;

/// No written tree is longer.
pub const MAX_WRITTEN: usize = 65_535;

/// Ends that a check hands out: as many as a forest may have records.
pub const ENTRIES: usize = 256;

extern "C" {
    // include/cse.h
    fn cse_call(
        forest: *const u8,
        forest_length: usize,
        out: *mut u8,
        out_length: usize,
        work: *mut u32,
        work_length: usize,
        number: *mut u32,
        place: *mut u32,
        written_length: *mut u32,
        symbols: *mut u32,
        readings: *mut u32,
    );

    fn cse_check(
        forest: *const u8,
        forest_length: usize,
        work: *mut u32,
        work_length: usize,
        ends: *mut u16,
        number: *mut u32,
        place: *mut u32,
    );
}

/// The main call: the written tree goes to the start of `out`; after any answer but 1 the first 16,384 words of `work`
/// are 0.
pub fn call(forest: &[u8], out: &mut [u8], work: &mut [u32]) -> Numbers {
    let mut numbers = Numbers::default();
    // SAFETY: each pointer comes from a reference of that length; the three slices and the five numbers are apart,
    // since the mutable ones are borrowed alone; the call keeps none of them, and asks nothing of its arguments.
    unsafe {
        cse_call(
            forest.as_ptr(),
            forest.len(),
            out.as_mut_ptr(),
            out.len(),
            work.as_mut_ptr(),
            work.len(),
            &mut numbers.number,
            &mut numbers.place,
            &mut numbers.written_length,
            &mut numbers.symbols,
            &mut numbers.readings,
        );
    }
    numbers
}

/// The check of a forest: for each record `ends` receives the number of the first record after its subtree. Its entries past
/// the last record, and all after a refusal, are 0. After any answer but 1 the first 16,384 words of `work` are 0.
pub fn check(forest: &[u8], work: &mut [u32], ends: &mut [u16; ENTRIES]) -> Checked {
    let mut checked = Checked::default();
    // SAFETY: each pointer comes from a reference of that length; the slices, the entries and the two numbers are apart,
    // since the mutable ones are borrowed alone; the call keeps none of them, and asks nothing of its arguments.
    unsafe {
        cse_check(
            forest.as_ptr(),
            forest.len(),
            work.as_mut_ptr(),
            work.len(),
            ends.as_mut_ptr(),
            &mut checked.number,
            &mut checked.place,
        );
    }
    checked
}

/// The written tree of a forest, or number and place of the refusal.
pub fn tree(forest: &[u8]) -> Result<Vec<u8>, (u32, u32)> {
    let mut out = vec![0; MAX_WRITTEN];
    let mut work = vec![0; WORK_WORDS];
    let numbers = call(forest, &mut out, &mut work);
    if numbers.number != 0 {
        return Err((numbers.number, numbers.place));
    }
    out.truncate(numbers.written_length as usize);
    Ok(out)
}
