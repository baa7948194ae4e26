// SPDX-License-Identifier: Apache-2.0 OR BSD-3-Clause
// Made by the command tools/erase from crates/superio_core/src/rtc_pl031/alarm.rt.
// These are the lines that the prover checks, without their contracts. Change them there.
//! When guest time reaches a value.

/// Guest time at the host's time `time`.
#[inline(always)]
pub(super) fn guest_time(offset: i64, time: u32) -> u32 {
    match i64::from(time).checked_add(offset) {
        Some(counter) if 0 <= counter && counter < 1 << 32 => counter as u32,
        _ => time,
    }
}

/// The first time of the host, from `from` up to the largest, at which guest time is `value` or more. Guest time is the
/// counter while the counter fits in 32 bits, and otherwise the host's time.
fn first_at_or_after(offset: i64, value: u32, from: u32) -> Option<u32> {
    if guest_time(offset, from) >= value {
        return Some(from);
    }
    let distance = offset.unsigned_abs();
    if offset >= 0 {
        let by_counter = u64::from(value).saturating_sub(distance) as u32;
        return Some(if from < by_counter { by_counter } else { value });
    }
    if from < value && u64::from(value) < distance {
        return Some(value);
    }
    let by_counter = u64::from(value) + distance;
    if by_counter < 1 << 32 {
        Some(by_counter as u32)
    } else {
        None
    }
}

/// The seconds from the moment `now` until guest time is `value` or more, or `None` if it never is. The host's time
/// wraps to 0.
pub(super) fn seconds_until(offset: i64, value: u32, now: u64) -> Option<u64> {
    let time = (now % (1 << 32)) as u32;
    if let Some(first) = first_at_or_after(offset, value, time) {
        return Some(u64::from(first - time));
    }
    match first_at_or_after(offset, value, 0) {
        Some(first) => Some((1 << 32) - u64::from(time) + u64::from(first)),
        None => None,
    }
}
