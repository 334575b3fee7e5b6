//! Ages at random. They are few, so that two of them often differ in the number alone, in the pass
//! alone, in both against each other, or not at all.

use crate::model::runs::Age;
use crate::model::{HIGHEST, HIGHEST_PASS};
use crate::random::Random;

/// So many numbers and as many passes, each from its step on and by its step.
#[derive(Clone, Copy, Debug)]
pub struct Ages {
    most: u64,
    number: u64,
    pass: u64,
}

impl Ages {
    /// The numbers 1 to most, and the passes 1 to most.
    pub const fn up_to(most: u64) -> Ages {
        Ages { most, number: 1, pass: 1 }
    }

    /// One to four numbers, and as many passes. Either go from 1 on, or are spread up to the highest.
    pub fn few(random: &mut Random) -> Ages {
        let most = 1 + random.below(4);
        let (number, pass) = ([1, HIGHEST / most], [1, HIGHEST_PASS / most]);
        Ages { most, number: random.pick(&number), pass: random.pick(&pass) }
    }

    pub fn draw(&self, random: &mut Random) -> Age {
        let mut count = || 1 + random.below(self.most);
        Age::new(self.number * count(), self.pass * count())
    }

    /// One that is refused with 15: its number or its pass, or both, are 0, or so much above the highest
    /// that 4 bytes of them are those of another of these.
    pub fn draw_refused(&self, random: &mut Random) -> Age {
        let Age { number, pass } = self.draw(random);
        let no_number = random.pick(&[0, HIGHEST + 1 + number]);
        let no_pass = random.pick(&[0, HIGHEST_PASS + 1 + pass]);
        match random.below(3) {
            0 => Age::new(no_number, pass),
            1 => Age::new(number, no_pass),
            _ => Age::new(no_number, no_pass),
        }
    }

    /// Its place among them, from 0.
    pub fn place(&self, age: Age) -> u64 {
        self.most * (age.number / self.number - 1) + (age.pass / self.pass - 1)
    }
}
