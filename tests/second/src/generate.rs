//! Inputs of the listing program, made from a seed: the same seed and index
//! give the same bytes everywhere. About half are valid jobs with a schedule;
//! the others are near-valid (`near`), at a limit (`limits`) or damaged
//! (`damage`). `schedules` makes calls of a whole schedule.

mod damage;
mod jobs;
mod limits;
mod near;
mod random;
pub mod schedules;
mod spelling;

pub use random::Random;

use spelling::{spell, Draft};

pub fn input(seed: u64, index: u64) -> Vec<u8> {
    let mut random = Random::for_input(seed, index);
    match random.weighted(&[50, 16, 14, 20]) {
        0 => {
            let draft = jobs::draft(&mut random);
            spell(&mut random, &draft).join()
        }
        1 => {
            let draft = near::draft(&mut random);
            spell(&mut random, &draft).join()
        }
        2 => {
            let draft = limits::draft(&mut random);
            spell(&mut random, &draft).join()
        }
        _ => damage::input(&mut random),
    }
}

#[cfg(test)]
mod tests {
    use super::*;
    use crate::listing;
    use crate::tally::Tally;

    #[test]
    fn the_same_seed_gives_the_same_inputs() {
        for index in 0..200 {
            assert_eq!(input(5, index), input(5, index));
        }
        assert_ne!(input(5, 0), input(6, 0));
    }

    #[test]
    fn every_answer_occurs() {
        let mut tally = Tally::new();
        for index in 0..1_500 {
            tally.count(&listing::list(&input(1, index)));
        }
        assert_eq!(tally.missing(), Vec::<&str>::new());
    }
}
