//! Random costs texts, and whether they are handed in.

use crate::generator::random::Random;
use crate::generator::writer::costs_text;
use crate::library::COSTS_GIVEN;
use crate::second::job::{ClassCosts, CLASSES, HOUSE_COSTS, MOST_COST};

/// The greatest costs of all classes.
pub const GREATEST_COSTS: ClassCosts = {
    let mut costs = [MOST_COST; CLASSES as usize];
    costs[0] = 0;
    costs
};

/// How class costs are drawn.
#[derive(Clone, Copy)]
enum CostStyle {
    Random,
    Small,
    Zero,
    Greatest,
    Edge,
    House,
}

/// The text of random class costs; a few times an empty text.
pub fn random_costs(random: &mut Random) -> Vec<u8> {
    if random.chance(30) {
        return Vec::new();
    }
    let style = random.weighted(&[
        (400, CostStyle::Random),
        (300, CostStyle::Small),
        (80, CostStyle::Zero),
        (80, CostStyle::Greatest),
        (50, CostStyle::Edge),
        (90, CostStyle::House),
    ]);
    costs_text(&class_costs(random, style))
}

/// Class costs; class 0 costs nothing.
fn class_costs(random: &mut Random, style: CostStyle) -> ClassCosts {
    let mut costs = HOUSE_COSTS;
    for class in 1..usize::from(CLASSES) {
        costs[class] = match style {
            CostStyle::Random => random.between(0, MOST_COST.into()) as u16,
            CostStyle::Small => random.below_u16(4),
            CostStyle::Zero => 0,
            CostStyle::Greatest => GREATEST_COSTS[class],
            CostStyle::Edge => random.pick(&[3599, 3600, 3601, MOST_COST - 1, MOST_COST]),
            CostStyle::House => HOUSE_COSTS[class],
        };
    }
    costs
}

/// The bits of a call: in more than half of the cases a costs text is handed in. The other bits are anything.
pub fn random_bits(random: &mut Random) -> u32 {
    let others = if random.chance(500) { 0 } else { random.bits() as u32 & !COSTS_GIVEN };
    if random.chance(600) {
        return others | COSTS_GIVEN;
    }
    others
}
