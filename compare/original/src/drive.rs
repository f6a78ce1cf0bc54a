//! One case, held against the original: both of its readers and both of its writers.

use crate::domain::{self, Clause};
use crate::fields::View;
use crate::original::{self, Read, Refusal};
use crate::ours::{cut, Ours, Tables};
use crate::tally::{Reader, Tally};
use compare::damage::{self, Writing};
use compare::generate::Random;
use compare::paper::*;
use elements::Transaction;

/// What differs, in words.
pub type Check<T = ()> = Result<T, String>;

/// The memory that comparisons use again and again.
#[derive(Default)]
pub struct Bench {
    tables: Tables,
    cut_tables: Tables,
    output: Vec<u8>,
    writing: Writing,
    pub tally: Tally,
}

/// What both sides are given: bytes, the pieces that they are cut into (the rest is the last one), and the sizes of our
/// tables in numbers.
#[derive(Clone, Copy)]
pub struct Input<'a> {
    pub bytes: &'a [u8],
    pub pieces: &'a [usize],
    pub sizes: [usize; 3],
}

/// Longer bytes aren't tried again with room for all that they could hold.
const SHORT: usize = 3000;

/// Every comparison of one input. `random` decides about the orders to write. Where our tables have no room, it is
/// tried again with tables that have room for as many records as go into these bytes: an input takes 41, an output 4,
/// an item 1.
pub fn check(ours: &mut impl Ours, input: Input, random: &mut Random, bench: &mut Bench) -> Check {
    bench.tally.cases += 1;
    let length = input.bytes.len();
    if check_once(ours, input, random, bench)? == 4 && length <= SHORT {
        bench.tally.again += 1;
        let records = [length / 41, length / 4, length];
        let sizes = [0, 1, 2].map(|table| records[table] * WIDTHS[table]);
        check_once(ours, Input { sizes, ..input }, random, bench)?;
    }
    Ok(())
}

/// The same with the sizes given; gives our answer.
fn check_once(ours: &mut impl Ours, input: Input, random: &mut Random, bench: &mut Bench) -> Check<usize> {
    let Input { bytes, sizes, .. } = input;
    bench.tally.bytes += bytes.len() as u64;
    bench.tables.prepare(sizes);
    let outcome = ours.read(bytes, &mut bench.tables);
    let original = original::read(bytes);
    let both = bench.verdicts(Reader::New, sizes, outcome, &original)?;
    bench.feed(ours, input, outcome, &original)?;
    let older = original::read_older(bytes);
    bench.verdicts(Reader::Older, sizes, outcome, &older)?;
    if let (true, Ok((transaction, taken))) = (both, original) {
        if matches!(&older, Ok((same, _)) if *same != transaction) {
            return Err("the older reader reads another transaction than the new one".into());
        }
        bench.tally.transaction(&transaction, taken);
        let head = outcome.head;
        bench.same_fields(&head, bytes, &transaction)?;
        bench.same_bytes(ours, &head, &bytes[..taken], &transaction)?;
        bench.order(ours, head, &bytes[..taken], random)?;
    }
    Ok(outcome.answer)
}

impl Bench {
    /// Accepted by one exactly if by the other, with the same bytes taken; else a clause of the domain says why. True
    /// if both accept.
    fn verdicts(&mut self, reader: Reader, sizes: [usize; 3], ours: Outcome, original: &Read) -> Check<bool> {
        let clause = match (ours.answer, original) {
            (FINISHED, Ok((_, taken))) if *taken == ours.taken => return Ok(true),
            (FINISHED, Err(Refusal::PeginStack)) if !self.pegin_stacks_acceptable(&ours.head) => Clause::PeginStack,
            (FINISHED, Err(Refusal::Allocation)) if reader == Reader::Older && !older_allocates(&ours.head) => {
                Clause::Allocation
            }
            (2, Ok((_, taken))) if !domain::few_bytes(*taken) => Clause::Bytes,
            (4, Ok((transaction, _))) if !domain::room(transaction, sizes) => Clause::Room,
            (number @ 1..=8, Err(refusal)) => return self.both_refuse(reader, number, *refusal).map(|()| false),
            (number, original) => {
                let original = original.as_ref().map(|read| read.1);
                return Err(format!(
                    "{reader:?} reader: ours {number} at {}, {} bytes taken; the original {original:?}",
                    ours.place, ours.taken
                ));
            }
        };
        self.tally.left_out(reader, clause);
        Ok(false)
    }

    /// The same reason, unless one side knows a fault that the other doesn't (docs/DIFFERENCES.md, 3.2).
    fn both_refuse(&mut self, reader: Reader, number: usize, refusal: Refusal) -> Check {
        match original::of_ours(number) {
            Some(same) if same == refusal => self.tally.refused(reader, refusal),
            _ if refusal == Refusal::Other => {
                return Err(format!("{reader:?} reader: an error of the original's that isn't known"))
            }
            None => self.tally.apart(reader, number, refusal),
            _ if matches!(refusal, Refusal::PeginStack | Refusal::Allocation) => {
                self.tally.apart(reader, number, refusal)
            }
            _ => return Err(format!("{reader:?} reader: ours refuses with {number}, the original for {refusal:?}")),
        }
        Ok(())
    }

    fn pegin_stacks_acceptable(&self, head: &Head) -> bool {
        domain::pegin_stacks_acceptable(head, &self.tables.inputs, &self.tables.items)
    }

    /// Cut: the same end as in one piece, for both; and where both read it, the same bytes taken of each piece.
    fn feed(&mut self, ours: &mut impl Ours, input: Input, at_once: Outcome, original: &Read) -> Check {
        let Input { bytes, pieces, sizes } = input;
        self.tally.pieces += pieces.len() as u64 + 1;
        self.cut_tables.prepare(sizes);
        let outcomes = ours.feed(bytes, pieces, &mut self.cut_tables);
        let mut heard = Vec::new();
        let fed = original::read_pieces(bytes, pieces, |more, taken| heard.push((more, taken)));
        if fed != *original {
            return Err("the original, cut, reads something else than in one piece".into());
        }
        let taken = outcomes.iter().map(|outcome| outcome.taken).sum();
        let finish = outcomes.last().copied().map(|outcome| Outcome { taken, ..outcome });
        if finish != Some(at_once) {
            return Err(format!("ours, cut, reads something else than in one piece: {finish:?}, {at_once:?}"));
        }
        if at_once.answer != FINISHED || original.is_err() {
            return Ok(());
        }
        same_pieces(input, &outcomes, &heard)?;
        if self.tables != self.cut_tables {
            return Err("ours, cut, leaves other tables than in one piece".into());
        }
        Ok(())
    }

    fn same_fields(&mut self, head: &Head, bytes: &[u8], transaction: &Transaction) -> Check {
        let order = self.tables.order(head, bytes);
        let view = View::of(&order);
        if let Some(what) = view.difference(transaction) {
            return Err(what);
        }
        if view.transaction().as_ref() != Some(transaction) {
            return Err("the transaction that our tables show isn't the original's".into());
        }
        self.tally.fields += 7 + transaction.input.len() as u64 * 10 + transaction.output.len() as u64 * 6;
        let records = self.tables.outputs.chunks_exact(OUTPUT);
        for (output, record) in transaction.output.iter().zip(records).take(4) {
            // Document 01 asks for the script alone (docs/DIFFERENCES.md, 4.6).
            self.tally.fee_differs += u64::from(record[9] == 0 && !output.is_fee());
        }
        Ok(())
    }

    /// What ours writes over the same bytes, and what the original's two writers write: the bytes that were read.
    fn same_bytes(&mut self, ours: &mut impl Ours, head: &Head, bytes: &[u8], transaction: &Transaction) -> Check {
        self.output.clear();
        self.output.resize(bytes.len(), 0);
        let written = ours.write(&self.tables.order(head, bytes), &mut self.output);
        if written != (Written { answer: FINISHED, place: 0, length: bytes.len() }) || self.output != bytes {
            return Err(format!("ours writes other bytes than were read: {written:?}"));
        }
        if transaction.size() != bytes.len() || head[6] as usize != bytes.len() {
            return Err(format!(
                "length: ours {}, the original's {}, read {}",
                head[6],
                transaction.size(),
                bytes.len()
            ));
        }
        for (name, written) in [("new", original::write(transaction)), ("older", original::write_older(transaction))] {
            if written != bytes {
                return Err(format!("the original's {name} writer writes other bytes than were read"));
            }
        }
        for (output, record) in transaction.output.iter().zip(self.tables.outputs.chunks_exact(OUTPUT)).take(4) {
            let fee = ours.is_fee(record.try_into().map_err(|_| "no whole record")?);
            if output.is_fee() != (fee && output.asset.is_explicit() && output.value.is_explicit()) {
                return Err(format!("fee: ours {fee}, the original's {}", output.is_fee()));
            }
        }
        self.tally.written += 1;
        Ok(())
    }

    /// An order with bodies at other places and numbers changed: what ours accepts is what the original writes of the
    /// transaction that it shows.
    fn order(&mut self, ours: &mut impl Ours, head: Head, bytes: &[u8], random: &mut Random) -> Check {
        if bytes.len() > 100_000 {
            return Ok(());
        }
        let tables = [&self.tables.inputs[..], &self.tables.outputs, &self.tables.items];
        damage::writing_case(&mut self.writing, head, tables, bytes, random);
        let order = self.writing.order();
        self.output.clear();
        self.output.resize(self.writing.room, 0);
        let written = ours.write(&order, &mut self.output);
        let told_apart = domain::outpoints_told_apart(&order);
        match written.answer {
            FINISHED if told_apart => {}
            12 if !told_apart => return Ok(self.tally.unwritten(Clause::Outpoint)),
            FINISHED | 12 => return Err(format!("an outpoint of number 12: {}, ours {written:?}", !told_apart)),
            _ => return Ok(()),
        }
        let Some(transaction) = View::of(&order).transaction() else {
            if domain::pegin_stacks_acceptable(order.head, order.inputs, order.items) {
                return Err("ours writes tables that show no transaction".into());
            }
            self.tally.unwritten(Clause::PeginStack);
            return Ok(());
        };
        let output = self.output.get(..written.length).ok_or("ours says a length behind its output")?;
        if original::write(&transaction) != output || original::write_older(&transaction) != output {
            return Err("of bodies elsewhere, the original writes other bytes than ours".into());
        }
        self.tally.orders += 1;
        Ok(())
    }
}

/// The same bytes taken of each piece, and more wanted after it by both or by none.
fn same_pieces(input: Input, outcomes: &[Outcome], heard: &[(bool, usize)]) -> Check {
    for ((outcome, &(more, taken)), piece) in outcomes.iter().zip(heard).zip(cut(input.bytes, input.pieces)) {
        let whole = !more || taken == piece.len();
        if outcome.taken != taken || (outcome.answer == MORE) != more || !whole {
            return Err(format!(
                "of a piece of {} bytes ours takes {} with {}, the original {taken}, more wanted: {more}",
                piece.len(),
                outcome.taken,
                outcome.answer
            ));
        }
    }
    Ok(())
}

fn older_allocates(head: &Head) -> bool {
    domain::older_allocates(head[2] as usize, head[3] as usize)
}
