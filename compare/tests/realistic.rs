//! The transactions on which speed is measured are sound, and what they are said to be.

use compare::log::Ending;
use compare::paper::*;
use compare::plain;
use compare::realistic::Night;
use compare::slips::Slip;
use compare::whole;

const COUNT: usize = 2_000;
/// The gate's tables.
const SIZES: [usize; 3] = [64 * INPUT, 64 * OUTPUT, 256 * ITEM];

#[test]
fn each_one_is_accepted_entire() {
    for bytes in Night::seeded(400, COUNT).transactions() {
        let reading = plain::read(bytes, SIZES, Slip::None);
        assert!(matches!(reading.ending, Ending::Finished(head) if head[6] as usize == bytes.len()));
    }
}

#[test]
fn they_are_of_the_kinds_said() {
    let (mut pegins, mut issuances) = (0, 0);
    for bytes in Night::seeded(400, COUNT).transactions() {
        let [mut inputs, mut outputs, mut items] = SIZES.map(|size| vec![0; size]);
        let mut lent = Lent { inputs: &mut inputs, outputs: &mut outputs, items: &mut items };
        let [_, flag, input_count, output_count, ..] = whole::read(bytes, &mut lent, true).head;
        assert_eq!(flag, 1);
        assert!((1..=4).contains(&input_count));
        assert!((3..=4).contains(&output_count));
        let records = || outputs.chunks(OUTPUT).take(output_count as usize);
        assert_eq!(records().filter(|record| record[9] == 0).count(), 1, "one fee");
        assert!(records().filter(|record| record[9] != 0).all(|record| (2_900..=4_200).contains(&record[13])));
        pegins += usize::from(inputs[2] == PEGIN && inputs[19] == 6);
        issuances += usize::from(inputs[2] == ISSUANCE && inputs[14] > 0);
    }
    // One in fifty each; the seed is fixed, the bounds are wide.
    assert!((20..=60).contains(&pegins) && (20..=60).contains(&issuances), "{pegins} pegins, {issuances} issuances");
}

#[test]
fn the_same_seed_gives_the_same_bytes() {
    assert_eq!(Night::seeded(7, 50).bytes(), Night::seeded(7, 50).bytes());
    assert_ne!(Night::seeded(7, 50).bytes(), Night::seeded(8, 50).bytes());
}
