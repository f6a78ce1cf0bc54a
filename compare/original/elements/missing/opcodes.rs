//! Stands for `src/opcodes.rs`: the opcodes that `script.rs` and `transaction/mod.rs` name, by Bitcoin's public
//! numbers. No reading or writing of a transaction uses them.

#[derive(Copy, Clone, PartialEq, Eq, Debug)]
pub struct All {
    code: u8,
}

impl All {
    pub fn into_u8(self) -> u8 {
        self.code
    }

    pub fn classify(self, _: ClassifyContext) -> Class {
        match self.code {
            0..=75 => Class::PushBytes(self.code.into()),
            76 => Class::Ordinary(Ordinary::OP_PUSHDATA1),
            77 => Class::Ordinary(Ordinary::OP_PUSHDATA2),
            78 => Class::Ordinary(Ordinary::OP_PUSHDATA4),
            _ => Class::Other,
        }
    }
}

impl From<u8> for All {
    fn from(code: u8) -> All {
        All { code }
    }
}

pub enum ClassifyContext {
    Legacy,
}

pub enum Class {
    PushBytes(u32),
    Ordinary(Ordinary),
    Other,
}

#[derive(Copy, Clone, PartialEq, Eq)]
pub enum Ordinary {
    OP_PUSHDATA1 = 76,
    OP_PUSHDATA2 = 77,
    OP_PUSHDATA4 = 78,
}

impl Ordinary {
    pub fn into_u8(self) -> u8 {
        self as u8
    }
}

pub const OP_TRUE: All = All { code: 81 };
pub const OP_FALSE: All = All { code: 0 };

pub mod all {
    use super::All;

    macro_rules! opcodes {
        ($($name:ident $code:literal),* $(,)?) => {
            $(pub const $name: All = All { code: $code };)*
        };
    }

    opcodes! {
        OP_PUSHBYTES_0 0, OP_PUSHBYTES_2 2, OP_PUSHBYTES_20 20, OP_PUSHBYTES_32 32, OP_PUSHBYTES_33 33,
        OP_PUSHBYTES_40 40, OP_PUSHBYTES_65 65, OP_PUSHDATA1 76, OP_PUSHDATA2 77, OP_PUSHDATA4 78,
        OP_PUSHNUM_1 81, OP_PUSHNUM_16 96, OP_VERIFY 105, OP_RETURN 106, OP_DUP 118, OP_EQUAL 135,
        OP_EQUALVERIFY 136, OP_NUMEQUAL 156, OP_NUMEQUALVERIFY 157, OP_HASH160 169, OP_CHECKSIG 172,
        OP_CHECKSIGVERIFY 173, OP_CHECKMULTISIG 174, OP_CHECKMULTISIGVERIFY 175, OP_CHECKSIGFROMSTACK 193,
        OP_CHECKSIGFROMSTACKVERIFY 194,
    }
}
