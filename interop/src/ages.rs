//! Ages of fences: against the model's formula, and against what the paper says of
//! the number itself.

use crate::edges::walls::age_member;
use crate::guc;
use crate::same::{same, Outcome};
use crate::sets::Set;
use crate::tally::Tally;
use model::generate::{half, Rng};
use model::wall::age;

/// Fences near which all pairs are asked.
const NEAR: [u16; 4] = [0, 32_767, 32_768, 65_535];

/// One pair. An age is from -32,768 to 32,767, and the newest fence with the age
/// added is the fence: there is one such number only.
fn check_age(tally: &mut Tally, fence: u16, newest: u16) -> Outcome {
    let got = guc::wall_age(fence, newest);
    same("age", got, age(fence, newest))
        .map_err(|problem| format!("fence {fence}, newest {newest}: {problem}"))?;
    let back = (newest as i64 + got as i64).rem_euclid(65_536);
    if !(-32_768..=32_767).contains(&got) || back != fence as i64 {
        return Err(format!("fence {fence}, newest {newest}: {got} is no age of it"));
    }
    if let Some(member) = age_member(fence, newest, got) {
        tally.members.count(Set::Age, member);
    }
    Ok(())
}

/// All pairs of fences near the ends, each fence beside one, and any pairs.
pub fn check_ages(rng: &mut Rng, tally: &mut Tally) -> Outcome {
    let near = |at: u16| (0..9).map(move |k| at.wrapping_add(k).wrapping_sub(4));
    let fences: Vec<u16> = NEAR.into_iter().flat_map(near).collect();
    for fence in &fences {
        for newest in &fences {
            check_age(tally, *fence, *newest)?;
        }
    }
    let one = half(rng);
    for other in 0..=65_535 {
        check_age(tally, other, one)?;
        check_age(tally, one, other)?;
    }
    for _ in 0..1000 {
        check_age(tally, half(rng), half(rng))?;
    }
    tally.mark("ages asked", (fences.len() * fences.len() + 2 * 65_536 + 1000) as u64);
    Ok(())
}
