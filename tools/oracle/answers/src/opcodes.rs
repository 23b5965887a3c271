//! Every opcode.

use original::armv7::Opcode;

/// Codes where their text changes: one digit and two, what four bits hold, the
/// last character of one byte and the first of two, the sums 255 and 256.
pub const CODES: [u8; 16] = [
    0, 1, 9, 10, 15, 16, 19, 20, 79, 80, 89, 90, 207, 208, 218, 255,
];

const OFF_AND_ON: [bool; 2] = [false, true];

/// Takes the variants, ordered by what they hold.
macro_rules! variants {
    (
        plain: $($plain:ident)*;
        flag: $($flag:ident)*;
        two_flags: $($two_flags:ident)*;
        four_flags: $($four_flags:ident)*;
        code: $($code:ident)*;
        two_codes: $($two_codes:ident)*;
        three_codes: $($three_codes:ident)*;
    ) => {
        /// The opcodes that hold no codes, with all their flags.
        pub fn without_codes() -> Vec<Opcode> {
            let mut all = vec![$(Opcode::$plain),*];
            for a in OFF_AND_ON {
                $(all.push(Opcode::$flag(a));)*
                for b in OFF_AND_ON {
                    $(all.push(Opcode::$two_flags(a, b));)*
                    for c in OFF_AND_ON {
                        for d in OFF_AND_ON {
                            $(all.push(Opcode::$four_flags(a, b, c, d));)*
                        }
                    }
                }
            }
            all
        }

        /// The opcodes that hold codes: `a` is the first, `b` the second, `c` the third.
        pub fn with_codes(a: u8, b: u8, c: u8) -> Vec<Opcode> {
            vec![
                $(Opcode::$code(a),)*
                $(Opcode::$two_codes(a, b),)*
                $(Opcode::$three_codes(a, b, c),)*
            ]
        }

        // This has no catch-all, so the build fails if a variant is missing.
        const _: fn(Opcode) = |opcode| match opcode {
            $(Opcode::$plain => {})*
            $(Opcode::$flag(_) => {})*
            $(Opcode::$two_flags(_, _) => {})*
            $(Opcode::$four_flags(_, _, _, _) => {})*
            $(Opcode::$code(_) => {})*
            $(Opcode::$two_codes(_, _) => {})*
            $(Opcode::$three_codes(_, _, _) => {})*
        };
    };
}

variants! {
    plain:
        Invalid POP PUSH B BL BLX BX BXJ AND EOR SUB RSB ADD ADC SBC RSC TST TEQ CMP
        CMN ORR MOV BIC MVN LSL LSR ASR RRX ROR ADR MSR MRS CLZ LDREXH STREXH LDREXB
        STREXB LDREXD STREXD LDREX STREX LDR STR LDRH STRH LDRB STRB LDRSH LDRSHT
        LDRSB LDRSBT STRD LDRD LDRT STRT LDRHT STRHT LDRBT STRBT SWP SWPB MUL MLA
        UMAAL MLS UMULL UMLAL SMULL SMLAL ERET BKPT HVC SMC MOVT QDSUB QDADD QSUB
        QADD TBB TBH UDF SVC WFE WFI SEV CSDB YIELD HINT NOP LEAVEX ENTERX CLREX DSB
        DMB ISB SXTH UXTH SXTB16 UXTB16 SXTB UXTB SXTAH UXTAH SXTAB16 UXTAB16 SXTAB
        UXTAB CBZ CBNZ SETEND CPS_modeonly REV REV16 REVSH IT PKHTB PKHBT ORN SSAT
        SSAT16 SBFX USAT USAT16 UBFX BFI BFC DBG PLD PLI RBIT SEL SADD16 QADD16
        SHADD16 SASX QASX SHASX SSAX QSAX SHSAX SSUB16 QSUB16 SHSUB16 SADD8 QADD8
        SHADD8 SSUB8 QSUB8 SHSUB8 UADD16 UQADD16 UHADD16 UASX UQASX UHASX USAX UQSAX
        UHSAX USUB16 UQSUB16 UHSUB16 UADD8 UQADD8 UHADD8 USUB8 UQSUB8 UHSUB8 SMLSD
        SMMLA SMMLS USADA8 USAD8 SMLAD SMUSD SMMUL SMUAD SDIV UDIV;
    flag: SMLAW CPS SMULW SMLALD SMLSLD;
    two_flags: SRS RFE SMUL SMLA SMLAL_halfword SMAL;
    four_flags: LDM STM;
    code: LDC LDCL LDC2 LDC2L STC STCL STC2 STC2L;
    two_codes: MCRR2 MRRC2 MCRR MRRC;
    three_codes: MCR2 MRC2 CDP2;
}

/// The opcodes that hold codes, with each of `CODES` at each place.
pub fn with_each_code() -> Vec<Opcode> {
    let mut all = with_codes(14, 3, 7);
    for code in CODES {
        for more in [
            with_codes(code, 3, 7),
            with_codes(14, code, 7),
            with_codes(14, 3, code),
        ] {
            for opcode in more {
                if !all.contains(&opcode) {
                    all.push(opcode);
                }
            }
        }
    }
    all
}
