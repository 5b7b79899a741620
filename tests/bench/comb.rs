//! Where the comb begins: how many attributes a K bears before the tree reaches its greatest depth (refusal 10), and the nodes that a history takes.

use crate::seeded::Seeded;
use crate::sides::{compare, played, Lent};
use crate::work::Work;

const CHANGES: usize = 100_000;
const KS: [u32; 8] = [25, 50, 100, 200, 400, 800, 1_600, 2_028];

/// How a history of so many changes at random times and attributes ends.
enum Ends {
    /// The first refusal is a 10, after so many changes.
    Deep(usize),
    /// Every change and the finish were accepted, in so many nodes.
    Finished(u32),
}

fn ends(seeded: &mut Seeded, attributes: u32, k: u32) -> Ends {
    let n = (3 * CHANGES as u32 / k + 1_000).min(65_536);
    let work = Work::new(attributes, k, 50, n).changes(seeded, CHANGES).finish();
    let (ours, _) = compare("the comb", &work);
    match (0..work.calls()).find(|&call| ours.refusal(call) != 0) {
        Some(call) if ours.refusal(call) == 10 => Ends::Deep(call),
        Some(call) => panic!("refused with {} and not for depth", ours.refusal(call)),
        None => Ends::Finished(played(&work, work.calls(), &mut Lent::new(&work)).map_or(0, |history| history.used)),
    }
}

pub fn print(seeded: &mut Seeded) {
    println!(
        "\nWhere the comb begins: of {} changes at random times and attributes, C 50, how many are accepted before refusal 10;",
        CHANGES
    );
    println!("where all are and the finish too, the nodes that they take");
    print!("  {:>10}", "attributes");
    KS.iter().for_each(|k| print!(" {:>12}", format!("K {}", k)));
    println!();
    for attributes in [8, 16, 32, 64, 128, 256, 512, 1_024, 2_048] {
        print!("  {:>10}", attributes);
        for k in KS {
            match ends(seeded, attributes, k) {
                Ends::Deep(count) => print!(" {:>12}", count),
                Ends::Finished(nodes) => print!(" {:>12}", format!("all, {}", nodes)),
            }
        }
        println!();
    }
}
