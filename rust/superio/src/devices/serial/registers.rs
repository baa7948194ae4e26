// SPDX-License-Identifier: Apache-2.0 OR BSD-3-Clause
// Made by the command tools/erase from crates/superio_core/src/serial/registers.rt.
// These are the lines that the prover checks, without their contracts. Change them there.
//! The registers of a 16550: their offsets and bits by their standard names, which one an offset reaches, and the bytes
//! that they hold.

// Offsets. DLL and DLM replace RBR, THR and IER while DLAB is set.
/// The offset of RBR and THR.
pub const DATA_OFFSET: u8 = 0;

/// The offset of IER.
pub const IER_OFFSET: u8 = 1;

/// The offset of IIR.
pub const IIR_OFFSET: u8 = 2;

pub(super) const LCR_OFFSET: u8 = 3;

/// The offset of MCR.
pub const MCR_OFFSET: u8 = 4;

pub(super) const LSR_OFFSET: u8 = 5;

pub(super) const MSR_OFFSET: u8 = 6;

pub(super) const SCR_OFFSET: u8 = 7;

// Interrupt enable: received data available, transmitter holding register empty, and the bits that a write keeps.
pub(super) const IER_RDA_BIT: u8 = 0x01;

pub(super) const IER_THR_EMPTY_BIT: u8 = 0x02;

pub(super) const IER_UART_VALID_BITS: u8 = 0x0F;

// Interrupt identification: nothing pending, the same two conditions, and FIFOs enabled.
/// The bit of IIR that says that nothing is pending.
pub const IIR_NONE_BIT: u8 = 0x01;

pub(super) const IIR_THR_EMPTY_BIT: u8 = 0x02;

pub(super) const IIR_RDA_BIT: u8 = 0x04;

pub(super) const IIR_FIFO_BITS: u8 = 0xC0;

// Line control: the divisor latch is at offsets 0 and 1.
pub(super) const LCR_DLAB_BIT: u8 = 0x80;

// Line status: data ready.
pub(super) const LSR_DATA_READY_BIT: u8 = 0x01;

// Modem control: four outputs, and loopback.
pub(super) const MCR_DTR_BIT: u8 = 0x01;

pub(super) const MCR_RTS_BIT: u8 = 0x02;

pub(super) const MCR_OUT1_BIT: u8 = 0x04;

pub(super) const MCR_OUT2_BIT: u8 = 0x08;

pub(super) const MCR_LOOP_BIT: u8 = 0x10;

// Modem status: four inputs, above four bits that show their changes.
pub(super) const MSR_DELTA_BITS: u8 = 0x0F;

pub(super) const MSR_CTS_BIT: u8 = 0x10;

pub(super) const MSR_DSR_BIT: u8 = 0x20;

pub(super) const MSR_RI_BIT: u8 = 0x40;

pub(super) const MSR_DCD_BIT: u8 = 0x80;

// A fresh port: divisor 12, which is 9600 baud; 8 data bits; OUT2 set; the transmitter empty; and a peer that is
// present, clear to send and ready.
pub(super) const DEFAULT_BAUD_DIVISOR_LOW: u8 = 0x0C;

pub(super) const DEFAULT_LINE_CONTROL: u8 = 0x03;

pub(super) const DEFAULT_LINE_STATUS: u8 = 0x60;

pub(super) const DEFAULT_MODEM_CONTROL: u8 = 0x08;

pub(super) const DEFAULT_MODEM_STATUS: u8 = 0xB0;

/// The register that an access reaches, by its name in the datasheet. Contracts name it.
#[derive(Clone, Copy, Debug, PartialEq, Eq)]
pub enum Register {
    /// The low byte of the divisor latch.
    Dll,
    /// The high byte of the divisor latch.
    Dlm,
    /// The receiver buffer for a read, the transmitter holding register for a write.
    Data,
    /// Interrupt enable.
    Ier,
    /// Interrupt identification.
    Iir,
    /// Line control.
    Lcr,
    /// Modem control.
    Mcr,
    /// Line status.
    Lsr,
    /// Modem status.
    Msr,
    /// Scratch.
    Scr,
    /// No register is at this offset.
    Unassigned,
}

/// A condition that may interrupt. Contracts name it.
#[derive(Clone, Copy, Debug, PartialEq, Eq)]
pub enum Condition {
    /// Received data available.
    Rda,
    /// Transmitter holding register empty.
    Thre,
}

impl Condition {
    /// The bit of IER that enables the condition.
    #[inline(always)]
    pub(super) fn ier_bit(self) -> u8 {
        match self {
            Condition::Rda => IER_RDA_BIT,
            Condition::Thre => IER_THR_EMPTY_BIT,
        }
    }

    /// The bit of IIR that shows that the condition is pending.
    #[inline(always)]
    pub(super) fn iir_bit(self) -> u8 {
        match self {
            Condition::Rda => IIR_RDA_BIT,
            Condition::Thre => IIR_THR_EMPTY_BIT,
        }
    }
}

/// How many registers keep a byte.
pub(super) const REGISTER_COUNT: usize = 9;

/// The register bytes of a port, in the order of a saved state, without the received bytes.
#[repr(C)]
#[derive(Clone, Copy, Debug, PartialEq, Eq)]
pub struct Registers {
    /// DLL, the low byte of the divisor latch.
    pub baud_divisor_low: u8,
    /// DLM, the high byte of the divisor latch.
    pub baud_divisor_high: u8,
    /// IER. 0x01 enables RDA, received data available, and 0x02 THRE, transmitter holding register empty.
    pub interrupt_enable: u8,
    /// IIR without bits 0xC0. 0x04 shows that RDA is pending, 0x02 that THRE is pending, and 0x01 that neither is.
    pub interrupt_identification: u8,
    /// LCR. 0x80 is DLAB.
    pub line_control: u8,
    /// LSR. 0x01 is data ready.
    pub line_status: u8,
    /// MCR. 0x10 is loopback.
    pub modem_control: u8,
    /// MSR.
    pub modem_status: u8,
    /// SCR.
    pub scratch: u8,
}

impl Registers {
    /// The registers of a fresh port.
    // Clauses in crates/superio_core/src/serial/registers.rt: returns.
    pub fn new() -> Registers {
        Registers {
            baud_divisor_low: DEFAULT_BAUD_DIVISOR_LOW,
            baud_divisor_high: 0,
            interrupt_enable: 0,
            interrupt_identification: IIR_NONE_BIT,
            line_control: DEFAULT_LINE_CONTROL,
            line_status: DEFAULT_LINE_STATUS,
            modem_control: DEFAULT_MODEM_CONTROL,
            modem_status: DEFAULT_MODEM_STATUS,
            scratch: 0,
        }
    }

    /// The register that an offset reaches.
    #[inline(always)]
    // Clauses in crates/superio_core/src/serial/registers.rt: returns.
    pub fn decode(&self, offset: u8) -> Register {
        match offset {
            DATA_OFFSET if self.is_divisor_shown() => Register::Dll,
            DATA_OFFSET => Register::Data,
            IER_OFFSET if self.is_divisor_shown() => Register::Dlm,
            IER_OFFSET => Register::Ier,
            IIR_OFFSET => Register::Iir,
            LCR_OFFSET => Register::Lcr,
            MCR_OFFSET => Register::Mcr,
            LSR_OFFSET => Register::Lsr,
            MSR_OFFSET => Register::Msr,
            SCR_OFFSET => Register::Scr,
            _ => Register::Unassigned,
        }
    }

    /// Whether LCR's DLAB puts the divisor latch at offsets 0 and 1.
    #[inline(always)]
    fn is_divisor_shown(&self) -> bool {
        has_bits(self.line_control, LCR_DLAB_BIT)
    }

    /// Whether IER enables a condition.
    #[inline(always)]
    // Clauses in crates/superio_core/src/serial/registers.rt: returns.
    pub fn enables(&self, condition: Condition) -> bool {
        has_bits(self.interrupt_enable, condition.ier_bit())
    }

    /// Whether loopback is on.
    #[inline(always)]
    // Clauses in crates/superio_core/src/serial/registers.rt: returns.
    pub fn is_loopback(&self) -> bool {
        has_bits(self.modem_control, MCR_LOOP_BIT)
    }

    /// Whether these registers are coherent with a FIFO of at most 64 bytes, which holds some if `holds_bytes` is true,
    /// and otherwise none: LSR shows data ready exactly if it holds some, IIR is 1, 2, 4 or 6, and RDA is pending only
    /// if it holds some.
    // Clauses in crates/superio_core/src/serial/registers.rt: returns.
    pub fn is_coherent(&self, holds_bytes: bool) -> bool {
        has_bits(self.line_status, LSR_DATA_READY_BIT) == holds_bytes
            && shows_conditions(self.interrupt_identification, holds_bytes)
    }

    /// What a read of MSR shows. In loopback its high four bits show MCR's outputs: DTR as DSR, RTS as CTS, OUT1 as RI
    /// and OUT2 as DCD.
    pub(super) fn read_msr(&self) -> u8 {
        if !self.is_loopback() {
            return self.modem_status;
        }
        let status = only_bits(self.modem_status, MSR_DELTA_BITS);
        let status = with_bits(status, self.loopback_bit(MCR_DTR_BIT, MSR_DSR_BIT));
        let status = with_bits(status, self.loopback_bit(MCR_RTS_BIT, MSR_CTS_BIT));
        let status = with_bits(status, self.loopback_bit(MCR_OUT1_BIT, MSR_RI_BIT));
        with_bits(status, self.loopback_bit(MCR_OUT2_BIT, MSR_DCD_BIT))
    }

    /// What an input of MSR shows in loopback: its bit, if the output of MCR that feeds it is set.
    fn loopback_bit(&self, output: u8, input: u8) -> u8 {
        if has_bits(self.modem_control, output) {
            input
        } else {
            0
        }
    }
}

/// Whether IIR is 1, 2, 4 or 6, with RDA pending only while bytes are held.
fn shows_conditions(identification: u8, holds_bytes: bool) -> bool {
    match identification {
        0x01 => true,
        0x02 => true,
        0x04 => holds_bytes,
        0x06 => holds_bytes,
        _ => false,
    }
}

/// Whether all these bits are set.
#[inline(always)]
pub(super) fn has_bits(byte: u8, bits: u8) -> bool {
    byte & bits == bits
}

/// The byte with these bits set.
#[inline(always)]
pub(super) fn with_bits(byte: u8, bits: u8) -> u8 {
    byte | bits
}

/// The byte with only these bits.
#[inline(always)]
pub(super) fn only_bits(byte: u8, bits: u8) -> u8 {
    byte & bits
}

/// The byte with these bits cleared.
#[inline(always)]
pub(super) fn without_bits(byte: u8, bits: u8) -> u8 {
    byte & !bits
}
