//! Sessions as the prover's definition spells them: lists of rows and names, not words and slots.

use crate::builder::{Builder, Do};
use crate::compiled::CompiledChart;
use crate::encode::encode_plainly;
use crate::limits::{HISTORY_PLACES, QUEUE_NAMES};
use crate::names::is_name;
use crate::numbers::RowNumber;
use crate::readings::chart_a;
use crate::row_set::RowSet;
use crate::session::{Queue, Session, CLOSING, ENDED, RUNNING};
use crate::tables::Chart;

#[derive(Clone, PartialEq, Eq, Debug)]
pub struct ListedSession {
    /// Ascending.
    pub configuration: Vec<u64>,
    /// One list for each row of the chart, empty where nothing is stored.
    pub history: Vec<Vec<u64>>,
    pub internal: Vec<Vec<u8>>,
    pub external: Vec<Vec<u8>>,
    pub mode: u64,
}

#[derive(Clone, PartialEq, Eq, Debug)]
pub struct SessionExample {
    pub about: String,
    pub session: ListedSession,
    pub fits: bool,
}

fn is_ascending(rows: &[u64]) -> bool {
    rows.windows(2).all(|pair| pair[0] < pair[1])
}

fn row_set(rows: &[u64]) -> Option<RowSet> {
    let listed_well = is_ascending(rows) && rows.iter().all(|&row| row < HISTORY_PLACES as u64);
    listed_well.then(|| rows.iter().map(|&row| RowNumber(row as usize)).collect())
}

fn queue(names: &[Vec<u8>]) -> Option<Queue> {
    if !names.iter().all(|name| is_name(name)) {
        return None;
    }
    Queue::of(names)
}

impl ListedSession {
    /// The session in words and slots, if lists of this kind can stand for one.
    fn session(&self, compiled: &CompiledChart) -> Option<Session> {
        if self.history.len() != compiled.chart.rows.len() {
            return None;
        }
        let mut session = Session {
            configuration: row_set(&self.configuration)?,
            internal: queue(&self.internal)?,
            external: queue(&self.external)?,
            mode: self.mode,
            ..Session::ended()
        };
        for (row, stored) in self.history.iter().enumerate() {
            session.stored[row] = row_set(stored)?;
        }
        Some(session)
    }

    fn fits(&self, compiled: &CompiledChart) -> bool {
        self.session(compiled).is_some_and(|session| session.is_well_formed(compiled))
    }

    fn of(session: &Session, rows: usize) -> ListedSession {
        let numbers = |set: &RowSet| set.rows().map(|row| row.0 as u64).collect();
        ListedSession {
            configuration: numbers(&session.configuration),
            history: session.stored[..rows].iter().map(numbers).collect(),
            internal: session.internal.names(),
            external: session.external.names(),
            mode: session.mode,
        }
    }
}

/// A chart with sessions for it.
type ChartSessions = (Chart, Vec<SessionExample>);

pub fn session_examples() -> Vec<ChartSessions> {
    vec![on_chart_a(), on_histories(), on_nested_parallels(), on_finals()]
}

struct Collector {
    compiled: CompiledChart,
    base: ListedSession,
    found: Vec<SessionExample>,
}

impl Collector {
    /// Begins with the session that a start and these events leave.
    fn new(chart: &Chart, events: &[&str]) -> Collector {
        let spelt = encode_plainly(chart);
        let compiled = CompiledChart::from_tables(&spelt.numbers, &spelt.names).expect("accepted");
        let mut session = Session::ended().start(Some(&compiled), 1_000).session;
        for event in events {
            session = session.post(Some(&compiled), event.as_bytes()).session;
            session = session.run(Some(&compiled), 10, 1_000).session;
        }
        let base = ListedSession::of(&session, chart.rows.len());
        let mut collector = Collector { compiled, base, found: Vec::new() };
        collector.add("well formed", true, |_| ());
        collector
    }

    /// Adds the base session with one change. What is expected is said and worked out.
    fn add(&mut self, about: &str, fits: bool, change: impl Fn(&mut ListedSession)) {
        let mut session = self.base.clone();
        change(&mut session);
        assert_eq!(session.fits(&self.compiled), fits, "{about}: {session:?}");
        self.found.push(SessionExample { about: about.to_string(), session, fits });
    }

    fn done(self) -> ChartSessions {
        (self.compiled.chart, self.found)
    }
}

fn name(text: &str) -> Vec<u8> {
    text.as_bytes().to_vec()
}

/// Chart A after its start: rows 1, 2, 3, 6 and 7 are active.
fn on_chart_a() -> ChartSessions {
    let mut c = Collector::new(&chart_a(), &[]);
    c.add("an atomic row is missing", false, |s| s.configuration.retain(|&row| row != 3));
    c.add("a compound row is missing", false, |s| s.configuration.retain(|&row| row != 2));
    c.add("the parallel is missing", false, |s| s.configuration.retain(|&row| row != 1));
    c.add("a region is missing", false, |s| s.configuration.truncate(3));
    c.add("a second child of a state", false, |s| s.configuration.insert(3, 4));
    c.add("a second child of the root", false, |s| s.configuration.push(10));
    c.add("another child of a state", true, |s| s.configuration[2] = 4);
    c.add("a final child of a state", true, |s| s.configuration[2] = 5);
    c.add("another child of the root", true, |s| s.configuration = vec![10]);
    c.add("a row whose parent is missing", false, |s| s.configuration = vec![3, 10]);
    c.add("a permuted configuration", false, |s| s.configuration.swap(2, 3));
    c.add("a reversed configuration", false, |s| s.configuration.reverse());
    c.add("a row twice", false, |s| s.configuration.insert(2, 3));
    c.add("the root listed", false, |s| s.configuration.insert(0, 0));
    c.add("a row past the count", false, |s| s.configuration.push(11));
    c.add("a row far past the count", false, |s| s.configuration.push(255));
    c.add("closing without a final under root", false, |s| s.mode = CLOSING);
    c.add("ended with active rows", false, |s| s.mode = ENDED);
    c.add("nothing active, yet running", false, |s| s.configuration.clear());
    c.add("nothing active, yet closing", false, |s| {
        s.configuration.clear();
        s.mode = CLOSING;
    });
    c.add("ended", true, |s| {
        s.configuration.clear();
        s.mode = ENDED;
    });
    c.add("ended with an internal name", false, |s| {
        s.configuration.clear();
        s.mode = ENDED;
        s.internal = vec![name("e")];
    });
    c.add("ended with an external name", false, |s| {
        s.configuration.clear();
        s.mode = ENDED;
        s.external = vec![name("e")];
    });
    c.add("stored at a row that is no history", false, |s| s.history[1] = vec![2]);
    c.add("stored at the root", false, |s| s.history[0] = vec![1]);
    c.add("a history list too short", false, |s| drop(s.history.pop()));
    c.add("a history list too long", false, |s| s.history.push(Vec::new()));
    c.add("no history lists", false, |s| s.history.clear());
    add_queues(&mut c);
    c.done()
}

fn add_queues(c: &mut Collector) {
    c.add("names in both queues", true, |s| {
        s.internal = vec![name("e1"), name("done.state.S1")];
        s.external = vec![name("a-b._9"), name("7")];
    });
    c.add("an empty name", false, |s| s.internal = vec![Vec::new()]);
    c.add("a star in the internal queue", false, |s| s.internal = vec![name("*")]);
    c.add("a star in the external queue", false, |s| s.external = vec![name("e"), name("*")]);
    c.add("a descriptor in a queue", false, |s| s.external = vec![name("a.*")]);
    c.add("a name with an empty token", false, |s| s.external = vec![name("a..b")]);
    c.add("a name that ends with a dot", false, |s| s.internal = vec![name("a.")]);
    c.add("a name with a zero", false, |s| s.internal = vec![vec![97, 0]]);
    c.add("a name with byte 128", false, |s| s.external = vec![vec![97, 128]]);
    c.add("a name of 63 bytes", true, |s| s.external = vec![vec![97; 63]]);
    c.add("a name of 64 bytes", false, |s| s.external = vec![vec![97; 64]]);
    c.add("32 names", true, |s| s.internal = vec![name("e"); QUEUE_NAMES]);
    c.add("33 internal names", false, |s| s.internal = vec![name("e"); QUEUE_NAMES + 1]);
    c.add("33 external names", false, |s| s.external = vec![name("e"); QUEUE_NAMES + 1]);
}

/// Both histories of a state with a parallel in it, after they have stored: rows 1 s, 2 x, 3 q,
/// 4 a, 5 a1, 6 a2, 7 c, 8 d (deep), 9 h (shallow), 10 z.
fn on_histories() -> ChartSessions {
    let mut b = Builder::new();
    b.state("", "s").state("s", "x").parallel("s", "q").state("q", "a").state("a", "a1").state("a", "a2");
    b.state("q", "c").deep("s", "d").shallow("s", "h").state("", "z");
    b.list("d", "x", &[]).list("h", "x", &[]).on("x", "e", "q").on("s", "f", "z");
    let mut c = Collector::new(&b.chart(), &["e", "f"]);
    c.add("nothing stored", true, |s| s.history.iter_mut().for_each(Vec::clear));
    c.add("the deep history alone stored", true, |s| s.history[9].clear());
    c.add("the shallow history alone stored", true, |s| s.history[8].clear());
    c.add("histories that do not agree", true, |s| s.history[9] = vec![2]);
    c.add("another deep set", true, |s| s.history[8] = vec![6, 7]);
    c.add("a deep set of one state", true, |s| s.history[8] = vec![2]);
    c.add("a deep set without a region", false, |s| s.history[8] = vec![5]);
    c.add("a deep set with two children of a state", false, |s| s.history[8] = vec![5, 6, 7]);
    c.add("a deep set across two children", false, |s| s.history[8] = vec![2, 7]);
    c.add("a deep set with a row that is not atomic", false, |s| s.history[8] = vec![4, 7]);
    c.add("a deep set with all that was active", false, |s| s.history[8] = vec![3, 4, 5, 7]);
    c.add("a deep set with a row outside", false, |s| s.history[8] = vec![10]);
    c.add("a deep set with a history", false, |s| s.history[8] = vec![9]);
    c.add("a shallow set of two children", false, |s| s.history[9] = vec![2, 3]);
    c.add("a shallow set with a grandchild", false, |s| s.history[9] = vec![4]);
    c.add("a shallow set with the parent", false, |s| s.history[9] = vec![1]);
    c.add("a shallow set with a row outside", false, |s| s.history[9] = vec![10]);
    c.add("a stored row past the count", false, |s| s.history[9] = vec![11]);
    c.add("stored at the parent of a history, what the history stored", false, |s| s.history[1] = vec![3]);
    c.add("stored at an atomic state, itself", false, |s| s.history[2] = vec![2]);
    c.add("stored at a parallel, its regions", false, |s| s.history[3] = vec![4, 7]);
    c.add("stored at a compound state, its child", false, |s| s.history[4] = vec![5]);
    c.add("stored at the row behind a history, what the history stored", false, |s| s.history[10] = vec![3]);
    c.add("stored at another row and at no history", false, |s| {
        s.history[8].clear();
        s.history[9].clear();
        s.history[1] = vec![3];
    });
    c.add("a history row listed", false, |s| s.configuration = vec![1, 2, 8]);
    c.add("a history row in place of a child", false, |s| s.configuration = vec![1, 9]);
    c.add("inside, with what was stored", true, |s| s.configuration = vec![1, 3, 4, 6, 7]);
    c.add("ended, with what was stored", true, |s| {
        s.configuration.clear();
        s.mode = ENDED;
    });
    c.done()
}

/// Histories of parallels: rows 1 p, 2 a, 3 a1, 4 a2, 5 q, 6 b, 7 c, 8 k (deep, of p), 9 h
/// (shallow, of p), 10 z.
fn on_nested_parallels() -> ChartSessions {
    let mut b = Builder::new();
    b.parallel("", "p").state("p", "a").state("a", "a1").state("a", "a2").parallel("p", "q");
    b.state("q", "b").state("q", "c").deep("p", "k").shallow("p", "h").state("", "z");
    b.list("k", "a2", &[]).list("h", "a", &[]).on("p", "f", "z");
    let mut c = Collector::new(&b.chart(), &["f"]);
    c.add("a shallow set without a region", false, |s| s.history[9] = vec![2]);
    c.add("a shallow set of another region", false, |s| s.history[9] = vec![5]);
    c.add("a deep set of other states", true, |s| s.history[8] = vec![4, 6, 7]);
    c.add("a deep set without a nested region", false, |s| s.history[8] = vec![3, 6]);
    c.add("a deep set without a region", false, |s| s.history[8] = vec![6, 7]);
    c.add("all regions active", true, |s| s.configuration = vec![1, 2, 4, 5, 6, 7]);
    c.add("a nested region missing", false, |s| s.configuration = vec![1, 2, 4, 5, 6]);
    c.add("a nested parallel missing", false, |s| s.configuration = vec![1, 2, 4, 6, 7]);
    c.add("a nested parallel without regions", false, |s| s.configuration = vec![1, 2, 4, 5]);
    c.done()
}

/// A chart that has reached its final: rows 1 s, 2 t, 3 f (final), 4 g (final).
fn on_finals() -> ChartSessions {
    let mut b = Builder::new();
    b.state("", "s").final_("s", "t").final_("", "f").final_("", "g");
    b.on("s", "done.state.s", "f").on_entry("f", &[Do::Raise("e")]);
    let chart = b.chart();
    let mut c = Collector::new(&chart, &[]);
    c.add("closing, the final not under root", false, |s| s.mode = CLOSING);
    c.add("closing", true, |s| {
        s.configuration = vec![3];
        s.mode = CLOSING;
    });
    c.add("closing on another final, names queued", true, |s| {
        s.configuration = vec![4];
        s.mode = CLOSING;
        s.internal = vec![name("e")];
        s.external = vec![name("x")];
    });
    c.add("running on a final under root", false, |s| {
        s.configuration = vec![3];
        s.mode = RUNNING;
    });
    c.add("ended on a final under root", false, |s| {
        s.configuration = vec![3];
        s.mode = ENDED;
    });
    c.add("closing on two finals", false, |s| {
        s.configuration = vec![3, 4];
        s.mode = CLOSING;
    });
    c.add("closing with another row", false, |s| {
        s.configuration = vec![1, 2, 3];
        s.mode = CLOSING;
    });
    c.add("closing with the root", false, |s| {
        s.configuration = vec![0, 3];
        s.mode = CLOSING;
    });
    c.done()
}
