//! The shims' counts, by a stranger's list: `crates/counts_main/stdin`, which bitcoinlib wrote
//! (`compare/compactsize/make`).

use elements::encode::{Decodable, Encodable, VarInt};
use encoding::{CompactSizeDecoder, CompactSizeDecoderError, CompactSizeEncoder, Decoder, Encoder};

fn bytes_of(hex: &str) -> Vec<u8> {
    (0..hex.len()).step_by(2).map(|at| u8::from_str_radix(&hex[at..at + 2], 16).expect("hexadecimal")).collect()
}

/// Byte by byte, with one byte behind, which must stay.
fn decoded(bytes: &[u8]) -> Result<usize, CompactSizeDecoderError> {
    let mut decoder = CompactSizeDecoder::new_with_limit(usize::MAX);
    for (at, byte) in bytes.iter().enumerate() {
        let status = decoder.push_bytes(&mut &[*byte][..]).expect("a count isn't judged before its end");
        assert_eq!(status.needs_more(), at + 1 < bytes.len());
    }
    let mut behind = &[0][..];
    assert!(!decoder.push_bytes(&mut behind).expect("done").needs_more());
    assert_eq!(behind.len(), 1);
    decoder.end()
}

#[test]
fn counts_as_a_stranger_writes_them() {
    let list = include_str!("../../../crates/counts_main/stdin");
    let (mut sound, mut wide) = (0, 0);
    for line in list.lines() {
        let (value, hex) = line.split_once(' ').expect("a value and its bytes");
        let bytes = bytes_of(hex);
        let older = VarInt::consensus_decode(&bytes[..]);
        if value == "!" {
            assert!(matches!(decoded(&bytes), Err(CompactSizeDecoderError::NonMinimal(_))), "{line}");
            assert!(matches!(older, Err(elements::encode::Error::NonMinimalVarInt)), "{line}");
            wide += 1;
            continue;
        }
        let value: u64 = value.parse().expect("a number");
        assert_eq!(decoded(&bytes), Ok(value as usize), "{line}");
        assert_eq!(CompactSizeEncoder::new(value as usize).current_chunk(), bytes, "{line}");
        assert_eq!(older.expect("the older reader's count").0, value, "{line}");
        let mut written = Vec::new();
        assert_eq!(VarInt(value).consensus_encode(&mut written).expect("a vector takes it"), bytes.len());
        assert_eq!(written, bytes, "{line}");
        sound += 1;
    }
    assert!(sound > 200 && wide > 200, "{sound} {wide}");
}

/// The greatest that the shims allow where the text names none.
#[test]
fn limits() {
    let form = |number: u32| [&[0xfe][..], &number.to_le_bytes()].concat();
    let read = |number| {
        let mut decoder = CompactSizeDecoder::new();
        decoder.push_bytes(&mut &form(number)[..]).expect("not judged before its end");
        decoder.end()
    };
    assert_eq!(read(4_000_000), Ok(4_000_000));
    assert_eq!(read(4_000_001), Err(CompactSizeDecoderError::ExceedsLimit(4_000_001)));
}
