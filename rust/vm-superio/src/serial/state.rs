// SPDX-License-Identifier: Apache-2.0 OR BSD-3-Clause
//! The saved state of a serial port.
use crate::sansio::fifo::{ArrayFifo, RxFifo, FIFO_SIZE};
use crate::sansio::serial::Registers;
use crate::sansio::Uart;
use crate::saved::SavedStateError;

/// The contents of a port's registers and its receive FIFO. The default is a new port's.
///
/// # Example
///
/// ```
/// use vm_superio::serial::NoEvents;
/// use vm_superio::{Serial, SerialState};
/// # use vm_superio::Trigger;
/// # struct Silent;
/// # impl Trigger for Silent {
/// #     type E = std::convert::Infallible;
/// #     fn trigger(&self) -> Result<(), Self::E> { Ok(()) }
/// # }
///
/// let mut serial = Serial::new(Silent, Vec::new());
/// serial.enqueue_raw_bytes(b"waiting").unwrap();
/// let bytes = serial.state().to_bytes().unwrap(); // goes to a file, or to another host
///
/// let state = SerialState::from_bytes(&bytes).unwrap();
/// assert!(state.is_coherent());
/// let mut restored = Serial::from_state(&state, Silent, NoEvents, serial.into_writer()).unwrap();
/// assert_eq!(restored.read(0), b'w');
/// ```
#[derive(Clone, Debug, Eq, PartialEq)]
#[cfg_attr(feature = "serde", derive(serde::Deserialize, serde::Serialize))]
pub struct SerialState {
    /// DLL, the low byte of the divisor.
    pub baud_divisor_low: u8,
    /// DLM, the high byte of the divisor.
    pub baud_divisor_high: u8,
    /// IER: 0x01 enables RDA, received data available, and 0x02 THRE, transmitter holding register empty.
    pub interrupt_enable: u8,
    /// IIR without 0xC0. 0x04: RDA is pending, 0x02: THRE is, 0x01: neither is.
    pub interrupt_identification: u8,
    /// LCR. Bit 0x80 puts the divisor at offsets 0 and 1.
    pub line_control: u8,
    /// LSR. Bit 0x01 is data ready.
    pub line_status: u8,
    /// MCR. Bit 0x10 is loopback.
    pub modem_control: u8,
    /// MSR.
    pub modem_status: u8,
    /// SCR.
    pub scratch: u8,
    /// The received bytes that the guest has not read, the oldest first: at most 64.
    pub in_buffer: Vec<u8>,
}

impl Default for SerialState {
    fn default() -> Self {
        SerialState::of(&Uart::new())
    }
}

impl SerialState {
    /// Whether the state is coherent: at most 64 bytes are held, LSR shows data ready exactly if bytes are held, IIR is
    /// 1, 2, 4 or 6, and RDA is pending only if bytes are held. A port that began as a new one always has a coherent
    /// state.
    ///
    /// It is safe to restore any other state too. If you do not trust the source of a state, refuse it unless it is
    /// coherent: an interrupt may be missing otherwise, or come without a byte.
    pub fn is_coherent(&self) -> bool {
        self.port().map_or(false, |port| port.is_coherent())
    }

    /// Returns the encoding: 17 to 81 bytes, the same on every machine. A state of up to 64 bytes has exactly one.
    ///
    /// # Errors
    ///
    /// [`SavedStateError::TooManyBytes`] if `in_buffer` has more than 64 bytes.
    pub fn to_bytes(&self) -> Result<Vec<u8>, SavedStateError> {
        let port = self.port().ok_or(SavedStateError::TooManyBytes)?;
        Ok(port.to_bytes().as_bytes().to_vec())
    }

    /// Reads a state back from its encoding. The state may be incoherent.
    ///
    /// # Errors
    ///
    /// Returns the first check of [`SavedStateError`] that the bytes fail.
    pub fn from_bytes(bytes: &[u8]) -> Result<SerialState, SavedStateError> {
        Uart::from_bytes(bytes).map(|port| SerialState::of(&port))
    }

    #[inline]
    pub(crate) fn of(port: &Uart) -> SerialState {
        let (registers, held) = (port.registers, &port.in_buffer);
        let oldest = usize::from(held.head);
        let places = (oldest..oldest + held.len()).map(|place| place % FIFO_SIZE);
        SerialState {
            baud_divisor_low: registers.baud_divisor_low,
            baud_divisor_high: registers.baud_divisor_high,
            interrupt_enable: registers.interrupt_enable,
            interrupt_identification: registers.interrupt_identification,
            line_control: registers.line_control,
            line_status: registers.line_status,
            modem_control: registers.modem_control,
            modem_status: registers.modem_status,
            scratch: registers.scratch,
            in_buffer: places.map(|place| held.bytes[place]).collect(),
        }
    }

    /// The port of this state, or `None` if it has more bytes than a port can hold.
    #[inline]
    pub(crate) fn port(&self) -> Option<Uart> {
        let count = self.in_buffer.len();
        // The count is at most FIFO_SIZE.
        let mut in_buffer = ArrayFifo { head: 0, len: count as u8, bytes: [0; FIFO_SIZE] };
        in_buffer.bytes.get_mut(..count)?.copy_from_slice(&self.in_buffer);
        let registers = Registers {
            baud_divisor_low: self.baud_divisor_low,
            baud_divisor_high: self.baud_divisor_high,
            interrupt_enable: self.interrupt_enable,
            interrupt_identification: self.interrupt_identification,
            line_control: self.line_control,
            line_status: self.line_status,
            modem_control: self.modem_control,
            modem_status: self.modem_status,
            scratch: self.scratch,
        };
        Some(Uart { registers, in_buffer })
    }
}
