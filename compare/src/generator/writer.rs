//! The texts of jobs, class costs and plans.

use crate::second::job::Job;

/// The text of a job.
pub fn job_text(job: &Job) -> Vec<u8> {
    let mut text = Text::default();
    text.line("job", &[1]);
    text.line("facts", &[job.facts]);
    text.line("init", &[job.init]);
    text.count("formulas", job.formulas.len());
    text.lines("f", &job.formulas);
    text.count("moves", job.moves.len());
    for action in &job.moves {
        let effects = action.effects.len() as u16;
        text.line("m", &[action.pre, action.class, effects, action.second_formula, action.second_class]);
        text.lines("e", &action.effects);
    }
    text.line("goal", &[job.goal]);
    text.line("objects", &[job.objects]);
    text.count("program", job.rows.len());
    text.lines("p", &job.rows);
    text.bytes
}

/// The text of class costs.
pub fn costs_text(costs: &[u16]) -> Vec<u8> {
    let mut text = Text::default();
    text.count("costs", costs.len());
    for cost in costs {
        text.line("c", &[*cost]);
    }
    text.bytes
}

/// The text of a plan whose entries have this key.
pub fn plan_text(key: &str, entries: &[u16]) -> Vec<u8> {
    let mut text = Text::default();
    text.count("plan", entries.len());
    for entry in entries {
        text.line(key, &[*entry]);
    }
    text.bytes
}

#[derive(Default)]
struct Text {
    bytes: Vec<u8>,
}

impl Text {
    fn line(&mut self, key: &str, numbers: &[u16]) {
        self.bytes.extend(key.bytes());
        for (place, number) in numbers.iter().enumerate() {
            self.bytes.push(if place == 0 { b'=' } else { b',' });
            self.bytes.extend(number.to_string().bytes());
        }
        self.bytes.push(b'\n');
    }

    fn count(&mut self, key: &str, count: usize) {
        self.line(key, &[count as u16]);
    }

    fn lines<const N: usize>(&mut self, key: &str, rows: &[[u16; N]]) {
        for row in rows {
            self.line(key, row);
        }
    }
}
