//! Calls that are gone through one by one instead of being left to chance.

mod contexts;
mod counts;
mod entries;
mod messages;
mod reset;
mod states;
mod time;
mod writing;

use super::desk::Desk;
use super::random::Random;
use super::session::{Checked, Session};

/// Half of the counter's round: a step this long is the clock going back.
const HALF: u32 = 1 << 31;

type Plan = fn(&mut Desk<'_, '_>) -> Checked<()>;

const PLANS: [Plan; 31] = [
    states::freshness,
    states::beyond_64_bits,
    states::full_table,
    states::wild_records,
    reset::every_text,
    reset::every_part,
    reset::every_length,
    reset::elsewhere,
    reset::datagrams,
    reset::resets,
    messages::damaged_samples,
    messages::cut_samples,
    states::damaged_records,
    states::twins,
    states::damaged_areas,
    states::lengths,
    states::numbers,
    messages::sizes,
    messages::byte_by_byte,
    time::supervision,
    time::long_silence,
    messages::every_method,
    writing::writer,
    reset::mechanisms,
    messages::every_entry,
    time::greatest_counts,
    time::slow_clocks,
    counts::counts,
    contexts::notifications,
    contexts::subscriptions,
    contexts::records,
];

/// Goes through all plans.
pub fn all(session: &mut Session<'_>, seed: u64) -> Checked<()> {
    for (place, plan) in PLANS.into_iter().enumerate() {
        let random = Random::new(seed ^ ((place as u64 + 1) << 32));
        // The counter goes round while a plan runs.
        let mut desk = Desk::new(session, random, 4_294_967_000)?;
        plan(&mut desk)?;
    }
    Ok(())
}
