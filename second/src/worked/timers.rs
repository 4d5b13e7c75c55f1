//! "Add the action send (event, delay 0 to 4,294,967,295 ticks, optional send id) and cancel (send id)"
//!

use super::{timed, Worked};
use crate::builder::{Builder, Do};
use crate::calls::Call;
use crate::limits::{MAX_DELAY, MAX_TICKS};
use crate::readings::{clock, post, run, run_in, start};
use crate::tables::Chart;

const LONGEST: u32 = MAX_DELAY as u32;

/// 1 s, 2 t; slot 2 is x: entering s sends x, which leads to t.
fn sent_at_once() -> Chart {
    let mut b = Builder::new();
    b.state("", "s").state("", "t").on_entry("s", &[Do::Send("x", 0, "")]).on("s", "x", "t");
    b.chart()
}

/// 1 s; slots 1 to 3 are x, y, z.
fn three_due() -> Chart {
    let mut b = Builder::new();
    b.state("", "s").on_entry("s", &[Do::Send("x", 9, ""), Do::Send("y", 3, ""), Do::Send("z", 3, "")]);
    b.chart()
}

/// 1 s; slots 1 x, 2 i, 3 y, 4 z, 5 j, 6 e, 7 nix.
fn cancelled() -> Chart {
    let mut b = Builder::new();
    b.state("", "s");
    let entry = [
        Do::Send("x", 5, "i"),
        Do::Send("y", 6, ""),
        Do::Send("z", 7, "j"),
        Do::Send("y", 0, "i"),
        Do::Send("i", 1, ""),
    ];
    b.on_entry("s", &entry);
    b.on("s", "e", "").doing(&[
        Do::Send("x", 1, "i"),
        Do::Cancel("i"),
        Do::Cancel("nix"),
        Do::Send("z", 2, "i"),
    ]);
    b.chart()
}

/// 1 s, whose entry fills the table; slots 1 x, 2 i, 3 a, 4 y, 5 b.
fn full() -> Chart {
    let mut b = Builder::new();
    b.state("", "s").on_entry("s", &[Do::Send("x", 1, "i"); 32]);
    b.on("s", "a", "").doing(&[Do::Cancel("i"), Do::Send("y", 0, "")]);
    b.on("s", "b", "").doing(&[Do::Send("y", 0, ""), Do::Cancel("i")]);
    b.chart()
}

/// 1 s, 2 c: a start of 33 sends.
fn too_many() -> Chart {
    let mut b = Builder::new();
    b.state("", "s").state("s", "c");
    b.on_entry("s", &[Do::Send("x", 1, "i"); 32]).on_entry("c", &[Do::Send("x", 1, ""), Do::Cancel("i")]);
    b.chart()
}

/// 1 s, 2 f; slots 2 x, 3 i, 4 e: the table is full when the session closes.
fn closing() -> Chart {
    let mut b = Builder::new();
    b.state("", "s").final_("", "f").on_entry("s", &[Do::Send("x", 9, "i"); 31]);
    b.on_entry("f", &[Do::Send("x", 3, "i")]).on_exit("f", &[Do::Send("x", 3, ""), Do::Cancel("i")]);
    b.on("s", "e", "f");
    b.chart()
}

/// 1 s; slots 1 e, 2 x: each e sends x.
fn ticking() -> Chart {
    let mut b = Builder::new();
    b.state("", "s").on("s", "e", "").doing(&[Do::Send("x", 5, ""), Do::Send("x", LONGEST, "")]);
    b.chart()
}

pub fn all() -> Vec<Worked> {
    [joining(), cancelling(), tables(), starts(), clocks()].concat()
}

fn joining() -> Vec<Worked> {
    let mut beside = vec![start()];
    beside.extend((0..30).map(|_| post("e")));
    beside.extend([clock(10), run(31), clock(10)]);
    vec![
        timed(
            "timers_delay_of_none",
            "R-9: a delay of 0 waits for a clock call, which may stand still; no run delivers it",
            &sent_at_once(),
            vec![start(), run(5), clock(0), run(5)],
            &[
                "[0, 0] (3,1) (8,2) conf [1] clock 0, 0 x",
                "[101, 0]  conf [1] clock 0, 0 x",
                "[0, 0] clock 0 external x",
                "[101, 1] (1,1) (2,0) (7,1) (3,2) conf [2] clock 0",
            ],
        ),
        timed(
            "timers_by_due_time",
            "R-9: what is due joins by due time, then by order of sending, as far as the queue has room",
            &three_due(),
            beside,
            &[
                "[0, 0] (3,1) (8,1) (8,2) (8,3) conf [1] clock 0, 9 x, 3 y, 3 z",
                "[0, 0] clock 10, 9 x external e e e e e e e e e e e e e e e e e e e e e e e e e e e e e e y z",
                "[100, 31]  conf [1] clock 10, 9 x",
                "[0, 0] clock 10 external z x",
            ],
        ),
        timed(
            "timers_not_yet",
            "R-9: what is due at the clock joins, what is due a tick later stays",
            &three_due(),
            vec![start(), clock(2), clock(3), clock(8), clock(9)],
            &[
                "[0, 0] (3,1) (8,1) (8,2) (8,3) conf [1] clock 0, 9 x, 3 y, 3 z",
                "[0, 0] clock 2, 9 x, 3 y, 3 z external",
                "[0, 0] clock 3, 9 x external y z",
                "[0, 0] clock 8, 9 x external y z",
                "[0, 0] clock 9 external y z x",
            ],
        ),
    ]
}

fn cancelling() -> Vec<Worked> {
    vec![timed(
        "timers_cancelled",
        "R-9: cancel takes every pending send of an equal id, of its own round too, and none without an id",
        &cancelled(),
        vec![start(), post("e"), run(1)],
        &[
            "[0, 0] (3,1) (8,1) (8,3) (8,4) (8,3) (8,2) conf [1] clock 0, 5 x i, 6 y, 7 z j, 0 y i, 1 i",
            "[101, 1] (2,0) (7,1) (8,1) (9,2) (9,7) (8,4) conf [1] clock 0, 6 y, 7 z j, 1 i, 2 z i",
        ],
    )]
}

fn tables() -> Vec<Worked> {
    vec![
        timed(
            "timers_room_made",
            "R-9: a cancel before the thirty-third send makes room for it",
            &full(),
            vec![start(), post("a"), run(1)],
            &[
                "[0, 0] (3,1) (8,1)*32 conf [1] clock 0, 1 x i*32",
                "[101, 1] (2,0) (7,1) (9,2) (8,4) conf [1] clock 0, 0 y",
            ],
        ),
        timed(
            "timers_no_room",
            "R-9: a cancel behind the thirty-third send does not; 7 before 10; a clock call empties the table",
            &full(),
            vec![start(), post("b"), run(1), run_in(1, 0), clock(1), run(1)],
            &[
                "[0, 0] (3,1) (8,1)*32 conf [1] clock 0, 1 x i*32",
                "[7, 0]  conf [1] clock 0, 1 x i*32",
                "[7, 0]  conf [1] clock 0, 1 x i*32",
                "[0, 0] clock 1, 1 x i external b x x x x x x x x x x x x x x x x x x x x x x x x x x x x x x x",
                "[100, 1] (2,1) (7,1) (8,4) (9,2) conf [1] clock 1, 1 y",
            ],
        ),
        timed(
            "timers_closing",
            "R-9: a closing round's sends are only shown, and the table is empty behind it; the clock stays",
            &closing(),
            vec![start(), clock(2), post("e"), run(1), clock(3), run_in(1, 2), run(1), clock(3)],
            &[
                "[0, 0] (3,1) (8,2)*31 conf [1] clock 0, 9 x i*31",
                "[0, 0] clock 2, 9 x i*31 external",
                "[100, 1] (1,1) (2,0) (7,1) (3,2) (8,2) conf [2] clock 2, 9 x i*31, 5 x i",
                "[0, 0] clock 3, 9 x i*31, 5 x i external",
                "[10, 0]  conf [2] clock 3, 9 x i*31, 5 x i",
                "[102, 1] (1,2) (8,2) (9,3) conf [] clock 3",
                "[11, 0] clock 3 external",
            ],
        ),
    ]
}

fn starts() -> Vec<Worked> {
    vec![
        timed(
            "timers_refused_start",
            "R-9: a start of 33 sends gets 7, and leaves a new record",
            &too_many(),
            vec![start(), Call::Start { room: 0 }],
            &["[7, 0]  conf [] clock 0", "[7, 0]  conf [] clock 0"],
        ),
        timed(
            "timers_start_again",
            "R-9: any start sets the clock to 0 and drops what was pending, a refused one too",
            &three_due(),
            vec![start(), clock(8), start(), clock(7), Call::Start { room: 3 }],
            &[
                "[0, 0] (3,1) (8,1) (8,2) (8,3) conf [1] clock 0, 9 x, 3 y, 3 z",
                "[0, 0] clock 8, 9 x external y z",
                "[0, 0] (3,1) (8,1) (8,2) (8,3) conf [1] clock 0, 9 x, 3 y, 3 z",
                "[0, 0] clock 7, 9 x external y z",
                "[10, 0]  conf [] clock 0",
            ],
        ),
    ]
}

fn clocks() -> Vec<Worked> {
    vec![
        timed(
            "timers_last_clock",
            "R-9: a send is due at the last clock plus its delay; a refused round leaves the record as before",
            &ticking(),
            vec![start(), clock(100), post("e"), post("e"), run_in(2, 7), clock(105)],
            &[
                "[0, 0] (3,1) conf [1] clock 0",
                "[0, 0] clock 100 external",
                "[10, 1] (2,0) (7,1) (8,2) (8,2) conf [1] clock 100, 105 x, 4294967395 x",
                "[0, 0] clock 105, 4294967395 x external e x",
            ],
        ),
        timed(
            "timers_greatest_clock",
            "R-9: 14 for an earlier clock and for one over 2^62; the greatest due time",
            &ticking(),
            vec![
                start(),
                clock(5),
                clock(4),
                clock(MAX_TICKS + 1),
                clock(u64::MAX),
                clock(MAX_TICKS),
                clock(MAX_TICKS - 1),
                post("e"),
                run(1),
                clock(MAX_TICKS),
            ],
            &[
                "[0, 0] (3,1) conf [1] clock 0",
                "[0, 0] clock 5 external",
                "[14, 0] clock 5 external",
                "[14, 0] clock 5 external",
                "[14, 0] clock 5 external",
                "[0, 0] clock 4611686018427387904 external",
                "[14, 0] clock 4611686018427387904 external",
                "[101, 1] (2,0) (7,1) (8,2) (8,2) conf [1] clock 4611686018427387904, 4611686018427387909 x, 4611686022722355199 x",
                "[0, 0] clock 4611686018427387904, 4611686018427387909 x, 4611686022722355199 x external",
            ],
        ),
        timed(
            "timers_before_a_start",
            "R-9: 11 before 14, for a session that no start has made",
            &ticking(),
            vec![clock(5), clock(u64::MAX), start()],
            &["[11, 0] clock 0 external", "[11, 0] clock 0 external", "[0, 0] (3,1) conf [1] clock 0"],
        ),
    ]
}
