//! Every kind of operand, with values at the limits of its fields.

use crate::make::{r, reg};
use original::armv7::{Bank, CReg, Operand, RegShift, StatusRegMask};

const OFF_AND_ON: [bool; 2] = [false, true];

/// Add and write-back, in all ways.
const ADD_AND_WBACK: [(bool, bool); 4] =
    [(false, false), (false, true), (true, false), (true, true)];

/// A register with a short name, one with a name of its own, one with a long
/// name, the stack pointer and the last one.
const REGS: [u8; 5] = [0, 9, 10, 13, 15];

pub const BANKS: [Bank; 8] = [
    Bank::Usr,
    Bank::Fiq,
    Bank::Irq,
    Bank::Svc,
    Bank::Abt,
    Bank::Und,
    Bank::Mon,
    Bank::Hyp,
];

pub const MASKS: [StatusRegMask; 31] = [
    StatusRegMask::CPSR_C,
    StatusRegMask::CPSR_X,
    StatusRegMask::CPSR_XC,
    StatusRegMask::APSR_G,
    StatusRegMask::CPSR_SC,
    StatusRegMask::CPSR_SX,
    StatusRegMask::CPSR_SXC,
    StatusRegMask::APSR_NZCVQ,
    StatusRegMask::CPSR_FC,
    StatusRegMask::CPSR_FX,
    StatusRegMask::CPSR_FXC,
    StatusRegMask::APSR_NZCVQG,
    StatusRegMask::CPSR_FSC,
    StatusRegMask::CPSR_FSX,
    StatusRegMask::CPSR_FSXC,
    StatusRegMask::SPSR,
    StatusRegMask::SPSR_C,
    StatusRegMask::SPSR_X,
    StatusRegMask::SPSR_XC,
    StatusRegMask::SPSR_S,
    StatusRegMask::SPSR_SC,
    StatusRegMask::SPSR_SX,
    StatusRegMask::SPSR_SXC,
    StatusRegMask::SPSR_F,
    StatusRegMask::SPSR_FC,
    StatusRegMask::SPSR_FX,
    StatusRegMask::SPSR_FXC,
    StatusRegMask::SPSR_FS,
    StatusRegMask::SPSR_FSC,
    StatusRegMask::SPSR_FSX,
    StatusRegMask::SPSR_FSXC,
];

pub const BYTES: [u8; 8] = [0, 7, 9, 10, 15, 16, 127, 255];
pub const HALFWORDS: [u16; 12] = [0, 1, 4, 7, 8, 15, 16, 255, 256, 0xfff, 0x1000, 0xffff];
pub const WORDS: [u32; 10] = [
    0,
    9,
    10,
    15,
    16,
    0xffff,
    0x1_0000,
    0x7fff_ffff,
    0x8000_0000,
    0xffff_ffff,
];
const LISTS: [u16; 10] = [
    0, 1, 2, 0x8000, 0x8010, 0x4010, 0x0600, 0x5555, 0xaaaa, 0xffff,
];
const OFFSETS: [u16; 7] = [0, 1, 4, 10, 0xff, 0xfff, 0xffff];

/// Branch offsets around the places where a shift by one or by two overflows.
pub const BRANCH_OFFSETS: [i32; 18] = [
    0,
    1,
    2,
    -1,
    -2,
    1 << 23,
    (1 << 29) - 1,
    1 << 29,
    -(1 << 29),
    -(1 << 29) - 1,
    (1 << 30) - 1,
    1 << 30,
    -(1 << 30),
    -(1 << 30) - 1,
    i32::MAX,
    i32::MAX - 1,
    i32::MIN,
    i32::MIN + 1,
];

/// Register `m`, shifted in the way `style` (0 to 3) by `amount`.
pub fn shift_by_amount(m: u16, style: u16, amount: u16) -> RegShift {
    RegShift::from_raw(amount << 7 | style << 5 | m)
}

/// Register `m`, shifted in the way `style` (0 to 3) by register `s`.
pub fn shift_by_register(m: u16, style: u16, s: u16) -> RegShift {
    RegShift::from_raw(s << 8 | style << 5 | 1 << 4 | m)
}

/// Each way of shifting, with few amounts and registers.
fn few_shifts() -> [RegShift; 7] {
    [
        shift_by_amount(2, 0, 0),
        shift_by_amount(2, 0, 2),
        shift_by_amount(10, 1, 0),
        shift_by_amount(11, 2, 0),
        shift_by_amount(15, 2, 31),
        shift_by_amount(0, 3, 0),
        shift_by_register(9, 3, 11),
    ]
}

fn shifts() -> Vec<RegShift> {
    let mut all = Vec::new();
    for style in 0..4 {
        for amount in [0, 1, 9, 10, 19, 20, 29, 30, 31] {
            all.push(shift_by_amount(1, style, amount));
        }
        for s in [0, 9, 10, 15] {
            all.push(shift_by_register(14, style, s));
        }
    }
    // The four highest bits mean nothing, nor does bit 7 beside a register.
    all.extend([0x0fff, 0xf000, 0xf011, 0xffef, 0xffff, 0x0090].map(RegShift::from_raw));
    all
}

/// One list for each kind of operand.
pub fn kinds() -> Vec<Vec<Operand>> {
    #[allow(deprecated)]
    let coprocessors = BYTES.map(Operand::Coprocessor).to_vec();
    vec![
        (0..16).map(reg).collect(),
        each(&REGS, &OFF_AND_ON, |n, wback| {
            Operand::RegWBack(r(n), wback)
        }),
        LISTS.map(Operand::RegList).to_vec(),
        REGS.map(|n| Operand::RegDeref(r(n))).to_vec(),
        shifts().into_iter().map(Operand::RegShift).collect(),
        each(&few_shifts(), &ADD_AND_WBACK, |shift, (add, wback)| {
            Operand::RegDerefPostindexRegShift(r(3), shift, add, wback)
        }),
        each(&few_shifts(), &ADD_AND_WBACK, |shift, (add, wback)| {
            Operand::RegDerefPreindexRegShift(r(10), shift, add, wback)
        }),
        each(&OFFSETS, &ADD_AND_WBACK, |offset, (add, wback)| {
            Operand::RegDerefPostindexOffset(r(1), offset, add, wback)
        }),
        each(&OFFSETS, &ADD_AND_WBACK, |offset, (add, wback)| {
            Operand::RegDerefPreindexOffset(r(15), offset, add, wback)
        }),
        each(&REGS, &ADD_AND_WBACK, |n, (add, wback)| {
            Operand::RegDerefPostindexReg(r(n), r(15 - n), add, wback)
        }),
        each(&REGS, &ADD_AND_WBACK, |n, (add, wback)| {
            Operand::RegDerefPreindexReg(r(n), r(15 - n), add, wback)
        }),
        HALFWORDS.map(Operand::Imm12).to_vec(),
        WORDS.map(Operand::Imm32).to_vec(),
        BRANCH_OFFSETS.map(Operand::BranchOffset).to_vec(),
        BRANCH_OFFSETS.map(Operand::BranchThumbOffset).to_vec(),
        coprocessors,
        BYTES.map(Operand::CoprocOption).to_vec(),
        (0..16).map(|n| Operand::CReg(CReg::from_u8(n))).collect(),
        each(&BANKS, &REGS, |bank, n| Operand::BankedReg(bank, r(n))),
        BANKS.map(Operand::BankedSPSR).to_vec(),
        MASKS.map(Operand::StatusRegMask).to_vec(),
        vec![Operand::APSR],
        vec![Operand::SPSR],
        vec![Operand::CPSR],
        vec![Operand::Nothing],
    ]
}

fn each<A: Copy, B: Copy>(
    firsts: &[A],
    seconds: &[B],
    make: impl Fn(A, B) -> Operand,
) -> Vec<Operand> {
    let pairs = firsts
        .iter()
        .flat_map(|&a| seconds.iter().map(move |&b| (a, b)));
    pairs.map(|(a, b)| make(a, b)).collect()
}

// This has no catch-all: if the original had another kind, the build would fail.
#[allow(deprecated)]
const _: fn(Operand) = |operand| match operand {
    Operand::Reg(..)
    | Operand::RegWBack(..)
    | Operand::RegList(..)
    | Operand::RegDeref(..)
    | Operand::RegShift(..)
    | Operand::RegDerefPostindexRegShift(..)
    | Operand::RegDerefPreindexRegShift(..)
    | Operand::RegDerefPostindexOffset(..)
    | Operand::RegDerefPreindexOffset(..)
    | Operand::RegDerefPostindexReg(..)
    | Operand::RegDerefPreindexReg(..)
    | Operand::Imm12(..)
    | Operand::Imm32(..)
    | Operand::BranchOffset(..)
    | Operand::BranchThumbOffset(..)
    | Operand::Coprocessor(..)
    | Operand::CoprocOption(..)
    | Operand::CReg(..)
    | Operand::BankedReg(..)
    | Operand::BankedSPSR(..)
    | Operand::StatusRegMask(..)
    | Operand::APSR
    | Operand::SPSR
    | Operand::CPSR
    | Operand::Nothing => {}
};
