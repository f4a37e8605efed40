//! The proved search and plan check, through their C interface.

use crate::answer::Answer;

/// The answer's fields as the proved search returns them.
#[repr(C)]
struct Fields {
    refused: u32,
    verdict: u32,
    flag: u64,
    cost: u64,
    bound: u64,
    length: u64,
    expansions: u64,
    rounds: u64,
    width: u64,
    low: u64,
}

impl Fields {
    fn answer(self) -> Answer {
        Answer {
            refused: self.refused == 1,
            verdict: self.verdict as u8,
            flag: self.flag == 1,
            cost: self.cost,
            bound: self.bound,
            length: self.length,
            expansions: self.expansions,
            rounds: self.rounds,
            width: self.width,
            low: self.low,
        }
    }
}

extern "C" {
    fn repgypsum_search(
        model: *const u8,
        model_len: usize,
        width: u32,
        length: u32,
        budget: u32,
        plan: *mut u8,
        plan_len: usize,
        words: *mut u64,
        words_len: usize,
    ) -> Fields;
    fn repgypsum_load(
        model: *const u8,
        model_len: usize,
        width: u32,
        budget: u32,
        plan: *mut u8,
        plan_len: usize,
        words: *mut u64,
        words_len: usize,
    ) -> Fields;
    fn repgypsum_search_widths(
        model: *const u8,
        model_len: usize,
        widths: *const u16,
        widths_len: usize,
        length: u32,
        budget: u32,
        plan: *mut u8,
        plan_len: usize,
        words: *mut u64,
        words_len: usize,
    ) -> Fields;
    fn repgypsum_load_widths(
        model: *const u8,
        model_len: usize,
        widths: *const u16,
        widths_len: usize,
        budget: u32,
        plan: *mut u8,
        plan_len: usize,
        words: *mut u64,
        words_len: usize,
    ) -> Fields;
    fn repgypsum_check_answer(
        model: *const u8,
        model_len: usize,
        plan: *const u8,
        plan_len: usize,
    ) -> u8;
    fn repgypsum_check_cost(
        model: *const u8,
        model_len: usize,
        plan: *const u8,
        plan_len: usize,
    ) -> u64;
    fn repgypsum_check_low(
        model: *const u8,
        model_len: usize,
        plan: *const u8,
        plan_len: usize,
    ) -> u64;
}

/// Searches with these buffers; the plan is written to the front of `plan`.
pub fn search(
    model: &[u8],
    width: u32,
    length: u32,
    budget: u32,
    plan: &mut [u8],
    words: &mut [u64],
) -> Answer {
    // Safety: each pointer comes with the length of its own slice; the function reads and writes inside them alone.
    let fields = unsafe {
        repgypsum_search(
            model.as_ptr(),
            model.len(),
            width,
            length,
            budget,
            plan.as_mut_ptr(),
            plan.len(),
            words.as_mut_ptr(),
            words.len(),
        )
    };
    fields.answer()
}

/// Searches in the loading profile, which chooses the length.
pub fn load(model: &[u8], width: u32, budget: u32, plan: &mut [u8], words: &mut [u64]) -> Answer {
    // Safety: as above.
    let fields = unsafe {
        repgypsum_load(
            model.as_ptr(),
            model.len(),
            width,
            budget,
            plan.as_mut_ptr(),
            plan.len(),
            words.as_mut_ptr(),
            words.len(),
        )
    };
    fields.answer()
}

/// Searches with a list of widths in the place of the widest beam.
pub fn search_widths(
    model: &[u8],
    widths: &[u16],
    length: u32,
    budget: u32,
    plan: &mut [u8],
    words: &mut [u64],
) -> Answer {
    // Safety: as above.
    let fields = unsafe {
        repgypsum_search_widths(
            model.as_ptr(),
            model.len(),
            widths.as_ptr(),
            widths.len(),
            length,
            budget,
            plan.as_mut_ptr(),
            plan.len(),
            words.as_mut_ptr(),
            words.len(),
        )
    };
    fields.answer()
}

/// Searches in the loading profile with a list of widths.
pub fn load_widths(
    model: &[u8],
    widths: &[u16],
    budget: u32,
    plan: &mut [u8],
    words: &mut [u64],
) -> Answer {
    // Safety: as above.
    let fields = unsafe {
        repgypsum_load_widths(
            model.as_ptr(),
            model.len(),
            widths.as_ptr(),
            widths.len(),
            budget,
            plan.as_mut_ptr(),
            plan.len(),
            words.as_mut_ptr(),
            words.len(),
        )
    };
    fields.answer()
}

/// The plan check's answer number, and the cost and the low figure where it is 0.
pub fn plan_check(model: &[u8], plan: &[u8]) -> (u8, u64, u64) {
    // Safety: as above; the functions only read.
    unsafe {
        (
            repgypsum_check_answer(model.as_ptr(), model.len(), plan.as_ptr(), plan.len()),
            repgypsum_check_cost(model.as_ptr(), model.len(), plan.as_ptr(), plan.len()),
            repgypsum_check_low(model.as_ptr(), model.len(), plan.as_ptr(), plan.len()),
        )
    }
}
