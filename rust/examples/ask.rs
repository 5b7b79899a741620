use history_page::{History, Refusal};

fn main() -> Result<(), Refusal> {
    // A page server loads both from where the study was saved. Here: one attribute, null for ten nanoseconds and then 7,
    // in one node that has room for K 2 intervals and C 2 children.
    let history = History { start: 0, latest: 19, attributes: 1, k: 2, c: 2, n: 1, used: 1, root: 0, level: 0 };
    let mut nodes = vec![0; 32 + 12 * 2 + 32 * 2];
    nodes[8] = 19; // the node's end; its start, place and level are 0
    nodes[20..24].fill(255); // it has no parent
    nodes[24] = 2; // two intervals
    nodes[29] = 2; // closed
    nodes[56 + 16] = 9; // quark 0: null from 0 to 9
    nodes[88 + 4] = 1; // quark 0: an integer,
    nodes[88 + 8] = 10; // from 10
    nodes[88 + 16] = 19; // to 19,
    nodes[88 + 24] = 7; // which is 7

    let (state, entered) = history.single(12, 0, &nodes)?;
    assert_eq!((state.value, state.start, state.end, entered), (Some(7), 10, 19, 1));

    let mut answer = vec![0; history.full_answer_len()];
    for state in history.full(3, &nodes, &mut answer)?.states() {
        println!("attribute {}: {:?} from {} to {}", state.quark, state.value, state.start, state.end);
    }

    let refusal = history.single(20, 0, &nodes).unwrap_err();
    println!("{}", refusal);
    Ok(())
}
