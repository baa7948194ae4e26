// SPDX-License-Identifier: Apache-2.0 OR BSD-3-Clause
//! Tests that states go through serde's formats as those of the Rust crate vm-superio 0.8.2 do.
#![cfg(test)]

use std::fmt::Debug;

use serde::{de::DeserializeOwned, Serialize};
use serde_json::{json, Value};
use vm_superio::rtc_pl031::RtcSnapshot;
use vm_superio::{RtcState, SerialState};

/// States that programs over vm-superio 0.8.2 saved: as JSON, and by bincode, as hexadecimal digits.
const PORT: &str = concat!(
    r#"{"baud_divisor_low":1,"baud_divisor_high":2,"interrupt_enable":1,"interrupt_identification":4,"#,
    r#""line_control":27,"line_status":97,"modem_control":8,"modem_status":176,"scratch":90,"in_buffer":[104,105]}"#,
);
const PORT_IN_BINCODE: &str = "010201041b6108b05a02000000000000006869";
const CLOCK: &str = r#"{"lr":1704067200,"offset":-3600,"mr":1704067260,"imsc":1,"ris":0}"#;
const CLOCK_IN_BINCODE: &str = "80009265f0f1ffffffffffffbc0092650100000000000000";

/// A snapshot with an alarm, which vm-superio does not have.
fn snapshot() -> RtcSnapshot {
    RtcSnapshot { armed: true, ..RtcSnapshot::from_five(serde_json::from_str(CLOCK).unwrap()) }
}

fn bytes_of(digits: &str) -> Vec<u8> {
    (0..digits.len()).step_by(2).map(|at| u8::from_str_radix(&digits[at..at + 2], 16).unwrap()).collect()
}

/// A state is read from both formats, and written to them again.
fn is_read_and_written<T: Serialize + DeserializeOwned>(text: &str, bytes: &[u8]) {
    let (one, other): (T, T) = (serde_json::from_str(text).unwrap(), bincode::deserialize(bytes).unwrap());
    assert_eq!((serde_json::to_string(&other).unwrap().as_str(), bincode::serialize(&one).unwrap()), (text, bytes.into()));
}

#[test]
fn what_was_saved_is_read_and_written_again() {
    is_read_and_written::<SerialState>(PORT, &bytes_of(PORT_IN_BINCODE));
    is_read_and_written::<RtcState>(CLOCK, &bytes_of(CLOCK_IN_BINCODE));
}

#[test]
fn a_snapshot_begins_with_the_state_of_vm_superio() {
    let text = serde_json::to_string(&snapshot()).unwrap();
    assert!(text.starts_with(&format!(r#"{{"state":{CLOCK},"armed":true"#)), "{text}");
    let bytes = bincode::serialize(&snapshot()).unwrap();
    assert!(bytes.starts_with(&bytes_of(&format!("{CLOCK_IN_BINCODE}01"))), "{bytes:?}");
}

/// Numbers by a linear congruential generator.
fn random(seed: &mut u64) -> u64 {
    *seed = seed.wrapping_mul(6_364_136_223_846_793_005).wrapping_add(1_442_695_040_888_963_407);
    *seed >> 31 ^ *seed << 33
}

/// A random value of the kind of another one: an array of bytes gets another length too. The registers of a device have
/// this many bits.
fn random_like(value: &Value, bits: u32, seed: &mut u64) -> Value {
    match value {
        Value::Object(fields) => {
            fields.iter().map(|(name, it)| (name.clone(), random_field(name, it, bits, seed))).collect()
        }
        other => panic!("{other} is no state"),
    }
}

fn random_field(name: &str, value: &Value, bits: u32, seed: &mut u64) -> Value {
    let number = random(seed);
    match (name, value) {
        ("in_buffer", _) => (0..number % 65).map(|_| random(seed) as u8).collect(),
        ("offset", _) => json!(number as i64),
        (_, Value::Bool(_)) => json!(number % 2 == 0),
        (_, Value::Object(_)) => random_like(value, bits, seed),
        _ => json!(number % (1 << bits)),
    }
}

/// Values that a field does not have.
fn wrong_values(name: &str, value: &Value, bits: u32) -> Vec<Value> {
    let mut wrong = vec![json!(0.5), json!("1"), json!(null), json!([[]]), json!(u64::MAX)];
    wrong.extend(match (name, value) {
        ("in_buffer", _) => vec![json!([256]), json!([-1]), json!(5)],
        ("offset", _) => vec![json!(1_u64 << 63), json!(true)],
        (_, Value::Bool(_)) => vec![json!(0), json!(1), json!(2)],
        (_, Value::Object(_)) => vec![json!(5)],
        _ => vec![json!(1_u64 << bits), json!(-1), json!(true)],
    });
    wrong
}

/// A state with random fields goes through both formats. It is refused without any one of its fields, or with a wrong
/// value of it, and a further field changes nothing.
fn takes_its_fields_alone<T: Clone + Debug + PartialEq + Serialize + DeserializeOwned>(form: &str, bits: u32) {
    let mut seed = std::env::var("TEST_SEED").map_or(1, |it| it.parse().unwrap());
    let form: Value = serde_json::from_str(form).unwrap();
    for _ in 0..300 {
        let value = random_like(&form, bits, &mut seed);
        let state: T = serde_json::from_value(value.clone()).unwrap();
        assert_eq!(serde_json::to_value(&state).unwrap(), value);
        let bytes = bincode::serialize(&state).unwrap();
        assert_eq!(bincode::deserialize::<T>(&bytes).unwrap(), state);
        for count in 0..bytes.len() {
            assert!(bincode::deserialize::<T>(&bytes[..count]).is_err());
        }
        for (name, field) in value.as_object().unwrap() {
            let changed = |new: Option<Value>| {
                let mut fields = value.as_object().unwrap().clone();
                let _ = fields.remove(name);
                fields.extend(new.map(|it| (name.clone(), it)));
                serde_json::from_value::<T>(Value::Object(fields))
            };
            assert!(changed(None).is_err(), "without {name}");
            for wrong in wrong_values(name, field, bits) {
                assert!(changed(Some(wrong.clone())).is_err(), "{name} is {wrong}");
            }
        }
        let mut further = value;
        further["further"] = json!(1);
        assert_eq!(serde_json::from_value::<T>(further).unwrap(), state);
    }
}

#[test]
fn a_state_takes_its_fields_alone() {
    takes_its_fields_alone::<SerialState>(PORT, 8);
    takes_its_fields_alone::<RtcState>(CLOCK, 32);
    takes_its_fields_alone::<RtcSnapshot>(&serde_json::to_string(&snapshot()).unwrap(), 32);
}
