//! What an import would cost (document 02, N8): on P8's box and P1's, with slots open, at the last stamps, and with other scratch tables.

use crate::costed;
use crate::listed::Listed;
use crate::rig::{word, Call};
use crate::say;
use ferjulm::{Block, Caller, Cost, Counts};

pub fn lines() -> Vec<String> {
    [one_slot(), fresh(), clean(), open(), full(), lengths()].concat()
}

/// Asks what blocks would cost: the answer, the scratch table's rows, and that it is what doing it gives.
fn ask(list: &mut Listed, blocks: impl IntoIterator<Item = u32>, caller: Caller) {
    let blocks: Vec<Block> = blocks.into_iter().map(Block).collect();
    let mut scratch = vec![0; list.b.rig.table.len()];
    let before = list.b.rig.clone();
    let cost = list.b.rig.cache().cost(&blocks, caller, &mut scratch);
    let named = say::list(blocks.iter().map(|block| block.0.to_string()));
    let answer = match cost {
        Ok(cost) => {
            assert_eq!(
                (cost, scratch.clone()),
                costed::really(&list.b.rig, &blocks, caller)
            );
            told(cost)
        }
        Err(refusal) => format!("refused {}", refusal.number()),
    };
    let rows = say::list(
        scratch
            .chunks(2)
            .map(|row| format!("{}/{}", row[0], row[1])),
    );
    let same = say::unchanged(list.b.rig == before);
    let by = if caller == Caller::Import {
        "import "
    } else {
        ""
    };
    list.lines
        .push(format!("{by}cost {named} -> {answer}; rows {rows}; {same}"));
}

fn told(cost: Cost) -> String {
    let Counts {
        copy_outs,
        metadata,
        data,
    } = cost.counts();
    let counts = format!("{copy_outs} copied out, {metadata} metadata, {data} data");
    match cost {
        Cost::Counted(_) => counts,
        Cost::Met { refusal, place, .. } => {
            format!("meets {} at place {place} after {counts}", refusal.number())
        }
    }
}

/// P8's box after its landing: a copy-out, an overwrite, and 13 after a copy-out.
fn one_slot() -> Vec<String> {
    let mut list = Listed::formatted("cost: one slot", 1, 2).run("offer 0, land 0 A");
    ask(&mut list, [1], Caller::People);
    ask(&mut list, [0, 1], Caller::People);
    ask(&mut list, [1, 0], Caller::Import);
    let mut list = list.at_stamp(4_294_967_232);
    ask(&mut list, [1], Caller::People);
    ask(&mut list, [0], Caller::People);
    list.lines
}

/// P1's box: more blocks than slots; a block that is too high, and the stamps one by one.
fn fresh() -> Vec<String> {
    let mut list = Listed::formatted("cost: four slots", 4, 8);
    ask(&mut list, 0..8, Caller::People);
    ask(&mut list, [0, 1, 8], Caller::Import);
    ask(&mut list, [8, 0], Caller::People);
    let mut list = list.at_stamp(4_294_967_230);
    ask(&mut list, 0..4, Caller::People);
    list.lines
}

/// Clean blocks, used and not, keep their slots; one whose slot an earlier place took is swept for again.
fn clean() -> Vec<String> {
    let mut list = Listed::formatted("cost: clean blocks", 2, 4)
        .run("fetch 0, land fetch 0, fetch 1, land fetch 1, look up 1");
    ask(&mut list, [1, 0], Caller::People);
    ask(&mut list, [2, 0], Caller::People);
    ask(&mut list, [2, 0, 1, 3], Caller::People);
    list.lines
}

/// 8 of an open block; 12 where all slots are open; 17 of the import with 8 open, and people beside it.
fn open() -> Vec<String> {
    let mut list = Listed::formatted("cost: slots open", 10, 20).run("offer 0, fetch 1");
    ask(&mut list, [2, 0], Caller::People);
    ask(&mut list, [1], Caller::People);
    for block in 2..10 {
        list.make(&format!("import offer {block}"));
    }
    ask(&mut list, [12, 13], Caller::Import);
    ask(&mut list, [12], Caller::People);
    let mut list = list.run("land 3 A, land 4 B");
    ask(&mut list, [3, 14, 15, 4], Caller::Import);
    list.lines
}

/// 11 with 63 open: an overwrite goes on, another slot is refused.
fn full() -> Vec<String> {
    let mut list = Listed::formatted("cost: 63 open", 65, 70).run("offer 64, land 64 A");
    for block in 0..63 {
        list.b
            .make(&Call::Offer(Block(block), Caller::People))
            .expect("a slot");
    }
    ask_briefly(&mut list, &[64, 65]);
    list.lines
}

/// Without the rows.
fn ask_briefly(list: &mut Listed, blocks: &[u32]) {
    ask(list, blocks.iter().copied(), Caller::People);
    let line = list.lines.last_mut().expect("a line");
    *line = line.split("; rows").next().expect("a line").to_string();
}

/// A scratch table one word short or long is 4; then 15 and 18, with the scratch table unwritten.
fn lengths() -> Vec<String> {
    let mut list =
        Listed::formatted("cost: scratch tables and lists", 4, 8).run("offer 5, land 5 A");
    for more in [-8, -1, 1, 0] {
        let call = Call::Cost(vec![Block(6)], Caller::People, more);
        list.make_call(&format!("cost 6, {more} words"), &call);
    }
    let mut named = |name: &str, blocks: Vec<u32>| {
        let call = Call::Cost(blocks.into_iter().map(Block).collect(), Caller::People, 0);
        list.make_call(&format!("cost of {name}"), &call);
    };
    named("no block", vec![]);
    named("64 blocks", (0..64).collect());
    named("63 blocks", (0..63).collect());
    named("a block twice", vec![9, 6, 9]);
    list.spoilt("hand 4: ", "cost 6", |rig| rig.set(word::HAND, 4));
    list.spoilt("flags 2: ", "cost 6", |rig| rig.table[1] = 2);
    list.lines
}
