// SPDX-License-Identifier: Apache-2.0 OR BSD-3-Clause
//! The calls that rust/vm-superio has beside those of the Rust crate. tests/devices/test_calls.py makes each.
use superio::rtc_pl031::{Rtc, RtcSnapshot};
use superio::saved::SavedStateError;
use superio::serial::SerialState;
use superio::serial::line::InterruptLine;
use superio::serial::timeout::CharacterTimeout;

use crate::{Devices, Outcome, bytes_of, clock_as_text, clock_of, hex, hex_of, name_of, number};

impl Devices {
    pub fn carry_out_further(&mut self, words: &[&str]) -> Outcome {
        match *words {
            ["si"] => self.serial.character_timeout().map(|()| "ok".into()).map_err(name_of),
            ["sp"] => self.serial.retry_interrupts().map(|()| "ok".into()).map_err(|_| "trigger".into()),
            ["sh"] => hex(self.serial.interrupt_line().into()),
            ["sf"] => hex(self.serial.state().is_coherent().into()),
            ["sb"] => self.serial.state().to_bytes().map(|bytes| hex_of(&bytes)).map_err(fault),
            ["sl", encoding] => self.load(&SerialState::from_bytes(&bytes_of(encoding)).map_err(fault)?),
            ["ch"] => hex(self.clock.interrupt_line().into()),
            ["cd", moment] => {
                Ok(self.clock.alarm_due(number(moment)).map_or("never".into(), |due| format!("{due:08x}")))
            }
            ["cb"] => Ok(hex_of(&self.clock.snapshot().to_bytes())),
            ["cl", .., "armed"] => {
                self.take_snapshot(&RtcSnapshot { armed: true, ..RtcSnapshot::from_five(clock_of(words)) })
            }
            ["cl", encoding] => {
                self.take_snapshot(&RtcSnapshot::from_bytes(&bytes_of(encoding)).map_err(fault)?)?;
                Ok("ok".into())
            }
            _ => Err("no call".into()),
        }
    }

    /// What the interrupts of a loaded port call is left out, since no one calls the trigger in C.
    fn load(&mut self, state: &SerialState) -> Outcome {
        self.object.begin(&[]);
        self.restore(state)?;
        self.object.begin(&[]);
        Ok("ok".into())
    }

    pub fn take_snapshot(&mut self, snapshot: &RtcSnapshot) -> Outcome {
        self.clock = Rtc::from_snapshot(snapshot, self.clock.events().clone());
        Ok(clock_as_text(&self.clock.state()) + if self.clock.is_armed() { " armed" } else { "" })
    }
}

/// What a load says of bytes that it refuses: the name of the case in words, and a version.
fn fault(error: SavedStateError) -> String {
    if let SavedStateError::UnknownVersion(version) = error {
        return format!("unknown version {version:02x}");
    }
    let mut words = String::new();
    for letter in format!("{error:?}").chars() {
        if letter.is_uppercase() && !words.is_empty() {
            words.push(' ');
        }
        words.extend(letter.to_lowercase());
    }
    words
}
