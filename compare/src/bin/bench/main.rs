//! bench [--quick] [--job NAME]: times of the library beside those of plain programs, on the same inputs, in the same
//! run. With a name, only that job of section 4.

mod accepted;
mod dijkstra;
mod filling;
mod growth;
mod inputs;
mod position_sets;
mod print;
mod states;
mod sweep;
mod texts;
mod timing;

use std::time::Duration;
use timing::Budget;

/// How much time is spent.
pub struct Settings {
    /// On a row of sections 1 to 3.
    texts: Budget,
    /// On a row of sections 4 and 5.
    filling: Budget,
    /// At most on the plain sweep of a job.
    sweep: Duration,
}

fn settings(quick: bool) -> Settings {
    if quick {
        return Settings {
            texts: Budget { seconds: 0.05, least_rounds: 2, most_rounds: 20 },
            filling: Budget { seconds: 0.25, least_rounds: 0, most_rounds: 8 },
            sweep: Duration::from_millis(20),
        };
    }
    Settings {
        texts: Budget { seconds: 0.5, least_rounds: 5, most_rounds: 200 },
        filling: Budget { seconds: 1.5, least_rounds: 3, most_rounds: 100 },
        sweep: Duration::from_secs(3),
    }
}

fn main() {
    let arguments: Vec<String> = std::env::args().collect();
    let settings = settings(arguments.iter().any(|argument| argument == "--quick"));
    let job = arguments.iter().skip_while(|argument| *argument != "--job").nth(1);
    let mut room = filling::Room::new();
    println!("processor times in microseconds, the least of several; ratio: library / other");
    if job.is_none() {
        texts::reading(settings.texts);
        texts::compiling(settings.texts, &mut room.list);
        texts::checking(settings.texts, &mut room.list);
    }
    let [plain, stacked] = filling::section(&settings, job, &mut room);
    if job.is_none() {
        growth::section(settings.filling, &mut room);
    }
    println!("\nbench: with free steps on a stack, largest ratio {:.2} (job {})", stacked.0, stacked.1);
    println!("bench: largest ratio to Dijkstra {:.2} (job {})", plain.0, plain.1);
}
