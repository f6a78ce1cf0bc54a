//! Reads a transaction from a file in pieces, as a radio link brings them, and prints answer, place, inputs, outputs and items. Bytes behind it are
//! no fault here, as they would be to the strict form; those that came with its last piece are told.
use std::{env, fs::File, io::Read, process::ExitCode};
use takzulit::{DecoderStatus, Refusal, Transaction, TransactionDecoder, INPUT_WIDTH, ITEM_WIDTH, OUTPUT_WIDTH};

fn main() -> ExitCode {
    let mut words = env::args_os().skip(1);
    let file = match (words.next(), words.next()) {
        (Some(name), None) => File::open(name).ok(),
        _ => None,
    };
    let file = match file {
        Some(file) => file,
        None => {
            eprintln!("usage: read_in_pieces FILE (one that can be read)");
            return ExitCode::from(2);
        }
    };
    let (mut inputs, mut outputs, mut items) = ([0; 64 * INPUT_WIDTH], [0; 64 * OUTPUT_WIDTH], [0; 256 * ITEM_WIDTH]);
    match read(file, TransactionDecoder::new(&mut inputs, &mut outputs, &mut items)) {
        Err(error) => {
            eprintln!("it could not be read: {error}");
            ExitCode::from(2)
        }
        Ok(Err(refusal)) => {
            println!("{} {} 0 0 0", refusal.number(), refusal.place());
            eprintln!("{refusal}");
            ExitCode::FAILURE
        }
        Ok(Ok((transaction, left))) => {
            let head = transaction.head();
            println!("0 0 {} {} {}", head.inputs, head.outputs, head.items);
            if left > 0 {
                println!("bytes of the last piece that follow it: {left}");
            }
            ExitCode::SUCCESS
        }
    }
}

/// The transaction, and how many bytes of the last piece follow it.
fn read<'t>(mut file: File, mut decoder: TransactionDecoder<'t>) -> std::io::Result<Result<(Transaction<'t>, usize), Refusal>> {
    let mut piece = [0; 1400];
    loop {
        let n = file.read(&mut piece)?;
        let mut rest = &piece[..n];
        match decoder.push_bytes(&mut rest) {
            Err(refusal) => return Ok(Err(refusal)),
            Ok(DecoderStatus::NeedsMore) if n > 0 => {}
            Ok(_) => return Ok(decoder.end().map(|t| (t, rest.len()))),
        }
    }
}
