//! The traits of coloured text. The stand-in has no colours: each kind of
//! opcode is given back as it came.

use core::fmt::{self, Display};

macro_rules! kinds_of_opcode {
    ($($kind:ident)*) => {
        pub trait YaxColors {
            $(fn $kind<T: Display>(&self, opcode: T) -> T {
                opcode
            })*
        }
    };
}

kinds_of_opcode! {
    arithmetic_op stack_op control_flow_op data_op comparison_op
    misc_op platform_op invalid_op
}

pub struct NoColors;

impl YaxColors for NoColors {}

pub trait Colorize<T: fmt::Write, Y: YaxColors> {
    fn colorize(&self, colors: &Y, out: &mut T) -> fmt::Result;
}

pub trait ShowContextual<Address, Context, T: fmt::Write, Y: YaxColors> {
    fn contextualize(
        &self,
        colors: &Y,
        address: Address,
        context: Option<&Context>,
        out: &mut T,
    ) -> fmt::Result;
}
