//! Checks of the replay: the worked example byte for byte, and the limits.

use super::Group;
use crate::log::{trailer, Slots, MOST_BYTES};
use crate::replay::replay;
use crate::samples::{self, log_of};

const EXAMPLE: &str = "\
S 0 1 3 0 0>0:10/0
S 1 2 6 0 0>0:11/0 1>1:21/0
S 2 1 2 0 0>1:12/0
S 3 0 0 2
S 4 1 4 0 1>0:20/4
T 7 6 1 5 1
";

pub fn example(group: &mut Group) {
    let log = log_of(&samples::example());
    let ending = [0x50, 0, 0, 0, 2, 0, 2, 0, 2, 0, 5, 0, 0, 0, 0x4C, 0x50];
    group.equal("trailer", &log[80..], &ending);
    group.equal("text", replay(&log).as_str(), EXAMPLE);
    let with_banner = [b"banner".to_vec(), log].concat();
    group.equal(
        "text behind a banner",
        replay(&with_banner).as_str(),
        EXAMPLE,
    );
}

pub fn limits(group: &mut Group) {
    let mut expect =
        |what: &str, log: &[u8], text: &str| group.equal(what, replay(log).as_str(), text);
    let smallest = trailer(0, [1, 1, 1], 0);
    expect("the smallest log", &smallest, "T 0 0 0 0 0\n");
    expect("no bytes", &[], "R 8 0\n");
    expect("15 bytes", &smallest[1..], "R 8 0\n");
    expect(
        "a card that does not fit",
        &trailer(0, [1, 33, 1], 0),
        "R 1 0\n",
    );
    expect("back length", &trailer(1, [1, 1, 1], 0), "R 9 0\n");
    let full = [vec![7; MOST_BYTES - 16], smallest].concat();
    expect("32,016 bytes", &full, "T 0 0 0 0 0\n");
    expect("32,017 bytes", &[vec![7], full].concat(), "R 8 0\n");
    expect(
        "room just enough",
        &trailer(0, [32, 32, 2], 0),
        "T 0 0 0 0 0\n",
    );
    expect(
        "room just enough",
        &trailer(0, [1, 32, 64], 0),
        "T 0 0 0 0 0\n",
    );
    expect("2,050 places", &trailer(0, [2, 25, 41], 0), "R 2 0\n");
    expect("room too small", &trailer(0, [32, 32, 3], 0), "R 2 0\n");
    expect("room too small", &trailer(0, [32, 32, 64], 0), "R 2 0\n");
    bad_records(group);
    longest(group);
}

/// Bad records, also of a card too large for the room: the records are checked first.
fn bad_records(group: &mut Group) {
    for d in [2, 64] {
        let good = log_of(&Slots {
            m: 2,
            n: 20,
            d,
            holds: vec![0; 3],
            outputs: vec![0; 6],
            cells: vec![1; 6],
        });
        let mut log = good.clone();
        log[16 + 2] = 16;
        group.equal("hold N", replay(&log).as_str(), "R 3 2\n");
        log[4] = 20;
        group.equal(
            "output N of an earlier record",
            replay(&log).as_str(),
            "R 4 1\n",
        );
        let fits = replay(&good) != "R 2 0\n";
        group.equal("room", fits, 2 * 20 * d <= 2_048);
    }
}

/// The most slots of a log; input 0 sends its cell in the slot in which it comes.
fn longest(group: &mut Group) {
    let slots = Slots {
        m: 1,
        n: 1,
        d: 1,
        holds: vec![0; 3_200],
        outputs: vec![0; 3_200],
        cells: vec![u32::MAX; 3_200],
    };
    let text = replay(&log_of(&slots));
    group.equal("lines", text.lines().count(), 3_201);
    group.equal(
        "slot 3,199",
        text.lines().nth(3_199),
        Some("S 3199 1 2 0 0>0:4294967295/0"),
    );
    group.equal(
        "last line",
        text.lines().last(),
        Some("T 3200 3200 0 3200 0"),
    );
    group.holds(
        "one line feed at the end",
        text.ends_with("0\n") && !text.contains("\n\n"),
    );
}
