//! judge JOB PLAN [COSTS]: judges the plan in a file for the job in a file, by the class costs in a file or, where none is named, by the house's; by the
//! library's C interface.
use std::process::ExitCode;

const COSTS_GIVEN: u32 = 1;

#[link(name = "capi", kind = "static")]
extern "C" {
    fn jesmovit_judge(
        job: *const u8,
        job_length: usize,
        plan: *const u8,
        plan_length: usize,
        costs: *const u8,
        costs_length: usize,
        given: u32,
        list: *mut u16,
        list_length: usize,
        table: *mut u64,
        table_length: usize,
        answer: *mut [u64; 5],
    ) -> u32;
}

/// A refusal's number and place.
struct Refusal(u32, u64);

/// What a plan is for a job: positions, steps, and the outcome with its numbers.
fn judge(job: &[u8], plan: &[u8], costs: Option<&[u8]>) -> Result<[u64; 5], Refusal> {
    let mut list = [0u16; 4096];
    let mut table = vec![0u64; 1 << 20];
    let mut answer = [0u64; 5];
    let given = if costs.is_some() { COSTS_GIVEN } else { 0 };
    let costs = costs.unwrap_or_default();
    // SAFETY: each pointer is that of a slice beside its own length, and what is written overlaps nothing else.
    let refusal = unsafe {
        jesmovit_judge(
            job.as_ptr(),
            job.len(),
            plan.as_ptr(),
            plan.len(),
            costs.as_ptr(),
            costs.len(),
            given,
            list.as_mut_ptr(),
            list.len(),
            table.as_mut_ptr(),
            table.len(),
            &mut answer,
        )
    };
    if refusal == 0 {
        Ok(answer)
    } else {
        Err(Refusal(refusal, answer[0]))
    }
}

fn read(path: &str) -> Vec<u8> {
    std::fs::read(path).unwrap_or_else(|error| {
        eprintln!("{path}: {error}");
        std::process::exit(2)
    })
}

fn main() -> ExitCode {
    let arguments: Vec<String> = std::env::args().collect();
    let (job, plan, costs) = match &arguments[..] {
        [_, job, plan] => (read(job), read(plan), None),
        [_, job, plan, costs] => (read(job), read(plan), Some(read(costs))),
        _ => {
            eprintln!("usage: judge JOB PLAN [COSTS]");
            return ExitCode::from(2);
        }
    };
    match judge(&job, &plan, costs.as_deref()) {
        Ok([_, _, 1, i, _]) => println!("blocked at {i}"),
        Ok([_, _, 2, _, _]) => println!("unfinished"),
        Ok([_, _, 3, _, _]) => println!("missed"),
        Ok([_, _, 4, cost, least]) => println!("least: cost {cost}, least cost {least}"),
        Ok([_, _, _, cost, least]) => println!("dearer: cost {cost}, least cost {least}"),
        Err(Refusal(number, place)) => {
            println!("refused by {number} at {place}");
            return ExitCode::FAILURE;
        }
    }
    ExitCode::SUCCESS
}
