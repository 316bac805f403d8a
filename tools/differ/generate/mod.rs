//! Requests for each call: boundaries, then all short inputs up to half the count, then as many random ones.

mod book;
mod line;
mod sequence;
mod source;
mod split;
mod trim;

use crate::cases::{Call, Case, Sink};
use crate::random::Random;

/// At least so many requests for a call.
pub fn generate(call: Call, count: usize, seed: u64, take: &mut dyn FnMut(Case)) {
    let mut random = Random::new(seed.wrapping_mul(31).wrapping_add(call as u64));
    let random = &mut random;
    let sink = &mut Sink::new(take);
    let half = count / 2;
    match call {
        Call::Trim => trim::boundaries(sink),
        Call::Split => split::boundaries(sink),
        Call::Join => source::join_boundaries(sink),
        Call::Back => source::back_boundaries(sink),
        Call::Copy => source::copy_boundaries(sink),
        Call::Book => book::boundaries(sink),
        Call::Sequence => sequence::boundaries(sink),
        Call::Line => line::boundaries(sink),
    }
    bad_requests(call, sink, random);
    match call {
        Call::Trim => trim::short(half, sink, random),
        Call::Split => split::short(half, sink, random),
        Call::Join => source::join_short(half, sink, random),
        Call::Back => source::back_short(sink, random),
        Call::Copy => source::copy_short(half, sink, random),
        Call::Book => book::short(half, sink, random),
        Call::Sequence => sequence::short(half, sink, random),
        Call::Line => line::short(half, sink, random),
    }
    let all = sink.given + half;
    while sink.given < all.max(count) {
        match call {
            Call::Trim => trim::random(sink, random),
            Call::Split => split::random(sink, random),
            Call::Join => source::join_random(sink, random),
            Call::Back => source::back_random(sink, random),
            Call::Copy => source::copy_random(sink, random),
            Call::Book => book::random(sink, random),
            Call::Sequence => sequence::random(sink, random),
            Call::Line => line::random(sink, random),
        }
    }
}

/// A good request with one letter changed, doubled or left out; some of these are good all the same.
fn bad_requests(call: Call, sink: &mut Sink, random: &mut Random) {
    let good = call.simplest().as_bytes();
    for at in 0..=good.len() {
        let mut request = good.to_vec();
        match random.below(3) {
            0 if at < good.len() => request[at] = random.pick(b"0-aA 1g,"),
            1 if at < good.len() => {
                request.remove(at);
            }
            _ => request.insert(at, random.pick(b"0-aA 1g,")),
        }
        sink.give(String::from_utf8(request).expect("7-bit letters"));
    }
}

/// A size near one that just suffices.
fn near(need: usize, random: &mut Random) -> usize {
    match random.below(10) {
        0 => need.saturating_sub(1),
        1 => need.saturating_sub(random.between(1, 3)),
        2 => need + 1,
        3 => need + random.between(1, 9),
        4 => 0,
        _ => need,
    }
}

/// One that suffices.
fn enough(need: usize, random: &mut Random) -> usize {
    need + random.pick(&[0, 0, 1, 7])
}
