//! The lengths of list, table and output that an operation is handed in the calls of one case.

use super::operation::Operation;
use crate::generator::random::Random;
use crate::lent::Lengths;

/// By how many numbers a list or table may be longer than needed.
const MORE: usize = 8;

/// By how many bytes an output may be longer than needed; two pages have room in them.
const MORE_BYTES: usize = 4000;

/// A cost table of more numbers is filled once only by each operation.
const LARGE: usize = 100_000;

/// The greatest lengths that are tried; without needed ones the job doesn't compile.
pub fn greatest(needed: Option<Lengths>) -> Lengths {
    let Lengths { list, table, out } = needed.unwrap_or(Lengths { list: 40, table: 40, out: 40 });
    Lengths { list: list + MORE, table: table + MORE, out: out + MORE_BYTES }
}

/// The lengths to try: just enough, longer, each alone and both too short.
pub fn lengths_for(random: &mut Random, operation: Operation, needed: Option<Lengths>) -> Vec<Lengths> {
    let Some(needed) = needed else {
        let any = Lengths { list: random.below(40), table: random.below(40), out: random.below(40) };
        return vec![taken(operation, any)];
    };
    let more = longer(random, needed);
    let short = Lengths { list: needed.list.saturating_sub(1), ..needed };
    let mut tried = vec![needed];
    if operation.takes_list() {
        tried.extend([more, short, Lengths { list: random.below(needed.list + 1), ..more }]);
    }
    if operation.takes_table() {
        let table = needed.table - 1;
        tried.extend([Lengths { table, ..needed }, Lengths { table, ..short }]);
        tried.push(Lengths { table: random.below(needed.table), ..more });
    }
    if operation.takes_out() && needed.out > 0 {
        let out = needed.out - 1;
        tried.extend([Lengths { out, ..needed }, Lengths { out, ..short }, Lengths { out: 0, ..needed }]);
        tried.push(Lengths { out: random.below(needed.out), ..more });
    }
    if operation.takes_table() && needed.table > LARGE {
        let filled = random.pick(&[needed, more]);
        tried.retain(|lengths| *lengths == filled || lengths.list < needed.list || lengths.table < needed.table);
    }
    tried.into_iter().map(|lengths| taken(operation, lengths)).collect()
}

/// Lengths that are greater than the needed ones.
fn longer(random: &mut Random, needed: Lengths) -> Lengths {
    Lengths {
        list: needed.list + random.between(1, MORE),
        table: needed.table + random.between(1, MORE),
        out: needed.out + random.between(1, MORE_BYTES),
    }
}

/// The lengths that an operation is handed; 0 for what it doesn't take.
fn taken(operation: Operation, Lengths { list, table, out }: Lengths) -> Lengths {
    Lengths {
        list: if operation.takes_list() { list } else { 0 },
        table: if operation.takes_table() { table } else { 0 },
        out: if operation.takes_out() { out } else { 0 },
    }
}
