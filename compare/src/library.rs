//! The library under test, declared as its C header declares it.

use crate::answer::Answer;

/// In the bits of `Given`: a costs text is handed in.
pub const COSTS_GIVEN: u32 = 1;

/// What may be left out: the bytes of a costs text, and the bits that say what of it is handed in.
#[derive(Clone, Copy)]
pub struct Given<'a> {
    pub costs: &'a [u8],
    pub bits: u32,
}

/// Nothing that may be left out.
pub const NONE_GIVEN: Given = Given { costs: b"", bits: 0 };

extern "C" {
    fn jesmovit_read_job(job: *const u8, job_length: usize, answer: *mut u64) -> u32;
    fn jesmovit_compile(job: *const u8, job_length: usize, list: *mut u16, list_length: usize, answer: *mut u64)
        -> u32;
    fn jesmovit_check_moves(
        job: *const u8,
        job_length: usize,
        plan: *const u8,
        plan_length: usize,
        costs: *const u8,
        costs_length: usize,
        given: u32,
        list: *mut u16,
        list_length: usize,
        answer: *mut u64,
    ) -> u32;
    fn jesmovit_check_steps(
        job: *const u8,
        job_length: usize,
        plan: *const u8,
        plan_length: usize,
        costs: *const u8,
        costs_length: usize,
        given: u32,
        list: *mut u16,
        list_length: usize,
        answer: *mut u64,
    ) -> u32;
    fn jesmovit_least_cost(
        job: *const u8,
        job_length: usize,
        costs: *const u8,
        costs_length: usize,
        given: u32,
        list: *mut u16,
        list_length: usize,
        table: *mut u64,
        table_length: usize,
        answer: *mut u64,
    ) -> u32;
    fn jesmovit_judge(
        job: *const u8,
        job_length: usize,
        plan: *const u8,
        plan_length: usize,
        costs: *const u8,
        costs_length: usize,
        given: u32,
        list: *mut u16,
        list_length: usize,
        table: *mut u64,
        table_length: usize,
        answer: *mut u64,
    ) -> u32;
    fn jesmovit_sheet(
        job: *const u8,
        job_length: usize,
        plan: *const u8,
        plan_length: usize,
        costs: *const u8,
        costs_length: usize,
        given: u32,
        list: *mut u16,
        list_length: usize,
        out: *mut u8,
        out_length: usize,
        answer: *mut u64,
    ) -> u32;
}

/// What the answer's numbers are before a call, so that one left unwritten is seen.
const UNWRITTEN: u64 = 0x5555_5555_5555_5555;

/// Calls a function of the library with room for its five numbers.
fn answered(call: impl FnOnce(*mut u64) -> u32) -> Answer {
    let mut values = [UNWRITTEN; 5];
    let number = call(values.as_mut_ptr());
    Answer { number, values }
}

// In each call below, pointers and lengths are those of slices: never null, aligned, and what is written overlaps
// nothing else.

pub fn read_job(job: &[u8]) -> Answer {
    answered(|answer| unsafe { jesmovit_read_job(job.as_ptr(), job.len(), answer) })
}

pub fn compile(job: &[u8], list: &mut [u16]) -> Answer {
    answered(|answer| unsafe { jesmovit_compile(job.as_ptr(), job.len(), list.as_mut_ptr(), list.len(), answer) })
}

pub fn check_moves(job: &[u8], plan: &[u8], given: Given, list: &mut [u16]) -> Answer {
    answered(|answer| unsafe {
        jesmovit_check_moves(
            job.as_ptr(),
            job.len(),
            plan.as_ptr(),
            plan.len(),
            given.costs.as_ptr(),
            given.costs.len(),
            given.bits,
            list.as_mut_ptr(),
            list.len(),
            answer,
        )
    })
}

pub fn check_steps(job: &[u8], plan: &[u8], given: Given, list: &mut [u16]) -> Answer {
    answered(|answer| unsafe {
        jesmovit_check_steps(
            job.as_ptr(),
            job.len(),
            plan.as_ptr(),
            plan.len(),
            given.costs.as_ptr(),
            given.costs.len(),
            given.bits,
            list.as_mut_ptr(),
            list.len(),
            answer,
        )
    })
}

pub fn least_cost(job: &[u8], given: Given, list: &mut [u16], table: &mut [u64]) -> Answer {
    answered(|answer| unsafe {
        jesmovit_least_cost(
            job.as_ptr(),
            job.len(),
            given.costs.as_ptr(),
            given.costs.len(),
            given.bits,
            list.as_mut_ptr(),
            list.len(),
            table.as_mut_ptr(),
            table.len(),
            answer,
        )
    })
}

pub fn judge(job: &[u8], plan: &[u8], given: Given, list: &mut [u16], table: &mut [u64]) -> Answer {
    answered(|answer| unsafe {
        jesmovit_judge(
            job.as_ptr(),
            job.len(),
            plan.as_ptr(),
            plan.len(),
            given.costs.as_ptr(),
            given.costs.len(),
            given.bits,
            list.as_mut_ptr(),
            list.len(),
            table.as_mut_ptr(),
            table.len(),
            answer,
        )
    })
}

pub fn sheet(job: &[u8], plan: &[u8], given: Given, list: &mut [u16], out: &mut [u8]) -> Answer {
    answered(|answer| unsafe {
        jesmovit_sheet(
            job.as_ptr(),
            job.len(),
            plan.as_ptr(),
            plan.len(),
            given.costs.as_ptr(),
            given.costs.len(),
            given.bits,
            list.as_mut_ptr(),
            list.len(),
            out.as_mut_ptr(),
            out.len(),
            answer,
        )
    })
}
