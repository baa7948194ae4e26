// SPDX-License-Identifier: Apache-2.0 OR BSD-3-Clause
//! The tests as one program: with one for each file, the compiler would make and link most of the code several times.
mod console;
mod console_calls;
mod echo;
mod refused;
mod values;
