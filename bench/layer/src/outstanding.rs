//! Compares the table of outstanding requests, through crate `tushalets`, with an ordinary Rust program: first their
//! answers, then the time for entering, for an arriving reply, and for both in turn, while other requests are held. The
//! two sides take turns; the median of 101 runs counts. It is a program of its own, since what is inlined in the layer's
//! readers depends on what else is in the program.

// The layer's program has these too, and uses all that is in them.
#[allow(dead_code)]
mod agreement;
#[path = "../../common.rs"]
mod common;
#[allow(dead_code)]
mod messages;
#[allow(dead_code)]
mod ordinary;

mod table;
mod table_agreement;
mod timing;

use agreement::collected;
use common::{Random, PADDING, SEED};
use ordinary::reading::Names;
use std::hint::black_box;
use std::time::{Duration, Instant};
use table::Record;
use timing::{row, title, turns};
use tushalets::numbers::types;
use tushalets::{NameRun, Outstanding, Received, Refusal, Reply, Success, RECORDS};

/// How many other requests are held: none, half of the records, and all but one.
const OTHERS: [u32; 3] = [0, RECORDS as u32 / 2, RECORDS as u32 - 1];

/// The type of all other requests.
const OTHER_TYPE: u8 = types::READ;

/// An odd number, which spreads the ids over all their bits.
const ID_STEP: u32 = 0x9e37_79b1;

/// Bytes of an id.
const ID_SIZE: usize = 4;

/// How often a run goes over its tables, which are made anew in between.
const ROUNDS: usize = 50;

/// The tables of a round. They are so few that all of them stay in the first cache.
const CASES: usize = 32;

const ACCESS_REPLY: Reply<'_, NameRun<'_>> = Reply::Success { result: 0, success: Success::Access };

/// Ids of different numbers are different.
fn nth_id(n: u32) -> u32 {
    n.wrapping_mul(ID_STEP)
}

/// Stores an id in a message.
fn set_id(message: &mut [u8], id: u32) {
    message[..ID_SIZE].copy_from_slice(&id.to_be_bytes());
}

/// A table of one side.
trait Table: Clone {
    type Names<'a>: Iterator<Item = &'a str>;
    const EMPTY: Self;
    fn enter(&mut self, id: u32, type_number: u8) -> Result<(), Refusal>;
    fn arrive<'a>(&mut self, message: &'a [u8]) -> Result<Received<Reply<'a, Self::Names<'a>>>, Refusal>;
}

impl Table for Outstanding {
    type Names<'a> = tushalets::Names<'a>;
    const EMPTY: Self = Outstanding::new();

    #[inline(always)]
    fn enter(&mut self, id: u32, type_number: u8) -> Result<(), Refusal> {
        Outstanding::enter(self, id, type_number)
    }

    #[inline(always)]
    fn arrive<'a>(&mut self, message: &'a [u8]) -> Result<Received<Reply<'a>>, Refusal> {
        Outstanding::arrive(self, message)
    }
}

/// The ordinary program's table. It is lent as a slice, of a length that the compiler is not to know.
type Records = [Record; RECORDS];

impl Table for Records {
    type Names<'a> = Names<'a>;
    const EMPTY: Self = [None; RECORDS];

    #[inline(always)]
    fn enter(&mut self, id: u32, type_number: u8) -> Result<(), Refusal> {
        table::enter(black_box(self.as_mut_slice()), id, type_number)
    }

    #[inline(always)]
    fn arrive<'a>(&mut self, message: &'a [u8]) -> Result<Received<Reply<'a, Names<'a>>>, Refusal> {
        table::arrive(black_box(self.as_mut_slice()), message)
    }
}

/// The type of a request, and the reply to it.
struct Exchange {
    name: &'static str,
    type_number: u8,
    reply: Vec<u8>,
}

fn main() {
    tushalets::check_version().expect("the library fits");
    let calls = table_agreement::compare(&mut Random(SEED));
    title(&format!("outstanding, code {PADDING} bytes further; same answers on {calls} calls"));
    let access = Exchange { name: "access", type_number: types::ACCESS, reply: messages::reply(&ACCESS_REPLY) };
    let getattr =
        Exchange { name: "getattr", type_number: types::GETATTR, reply: messages::reply(&messages::GETATTR_REPLY) };
    for others in OTHERS {
        time_entering(&access, others);
    }
    for exchange in [&access, &getattr] {
        for others in OTHERS {
            time_arriving(exchange, others);
        }
    }
    for others in OTHERS {
        time_both(&access, others);
    }
}

fn time_entering(exchange: &Exchange, others: u32) {
    same_answers(exchange, others);
    let name = format!("enter, {others} held");
    turns(&name, entering::<Outstanding>(exchange, others), entering::<Records>(exchange, others));
}

fn time_arriving(exchange: &Exchange, others: u32) {
    same_answers(exchange, others);
    let name = format!("arrive, {}, {others} others held", exchange.name);
    turns(&name, arriving::<Outstanding>(exchange, others), arriving::<Records>(exchange, others));
}

/// A request entered and answered, all of it in the time. The table is then as before.
fn time_both(exchange: &Exchange, others: u32) {
    same_answers(exchange, others);
    let name = format!("enter and arrive, {others} others held");
    row(&name, both::<Outstanding>(exchange, others), both::<Records>(exchange, others));
}

/// Both sides answer the same to a request and to its reply, each given twice.
fn same_answers(exchange: &Exchange, others: u32) {
    let (mut ours, mut theirs) = (holding::<Outstanding>(others), holding::<Records>(others));
    let id = nth_id(others);
    let mut reply = exchange.reply.clone();
    set_id(&mut reply, id);
    for _ in 0..2 {
        let answer = Table::enter(&mut ours, id, exchange.type_number);
        assert_eq!(answer, Table::enter(&mut theirs, id, exchange.type_number));
    }
    for _ in 0..2 {
        let answer = Table::arrive(&mut ours, &reply).map(collected);
        assert_eq!(answer, Table::arrive(&mut theirs, &reply).map(collected));
    }
}

/// A table that holds so many requests, in its first records.
fn holding<T: Table>(count: u32) -> T {
    let mut table = T::EMPTY;
    for id in (0..count).map(nth_id) {
        table.enter(id, OTHER_TYPE).expect("there is room");
    }
    table
}

/// What one call of a round is made on.
#[derive(Clone)]
struct Case<T> {
    table: T,
    id: u32,
    reply: Vec<u8>,
}

fn cases<T: Table>(start: &T, exchange: &Exchange) -> Vec<Case<T>> {
    vec![Case { table: start.clone(), id: 0, reply: exchange.reply.clone() }; CASES]
}

/// Runs of entering. Each table and each id is new.
fn entering<T: Table>(exchange: &Exchange, others: u32) -> impl FnMut() -> f64 {
    let start = holding::<T>(others);
    let mut ids = (others..).map(nth_id);
    let mut cases = cases(&start, exchange);
    let type_number = exchange.type_number;
    move || {
        let renew = |case: &mut Case<T>| {
            case.table = start.clone();
            case.id = ids.next().expect("there are enough ids");
        };
        nanoseconds_of_rounds(&mut cases, renew, |case| enter(&mut case.table, case.id, type_number))
    }
}

/// Runs of an arriving reply. Each answers the request that was entered last.
fn arriving<T: Table>(exchange: &Exchange, others: u32) -> impl FnMut() -> f64 {
    let start = holding::<T>(others);
    let mut ids = (others..).map(nth_id);
    let mut cases = cases(&start, exchange);
    let type_number = exchange.type_number;
    move || {
        let renew = |case: &mut Case<T>| {
            case.table = start.clone();
            case.id = ids.next().expect("there are enough ids");
            enter(&mut case.table, case.id, type_number);
            set_id(&mut case.reply, case.id);
        };
        nanoseconds_of_rounds(&mut cases, renew, |case| arrive(&mut case.table, &case.reply))
    }
}

/// Calls that enter a new id and hand in the reply to it.
fn both<T: Table>(exchange: &Exchange, others: u32) -> impl FnMut() {
    let mut table = holding::<T>(others);
    let mut ids = (others..).map(nth_id);
    let mut reply = exchange.reply.clone();
    let type_number = exchange.type_number;
    move || {
        let id = ids.next().expect("there are enough ids");
        enter(&mut table, id, type_number);
        set_id(&mut reply, id);
        arrive(&mut table, &reply);
    }
}

/// The time for one call that changes its case. Before each round the cases are made anew, outside of the time.
fn nanoseconds_of_rounds<C>(cases: &mut [C], mut renew: impl FnMut(&mut C), mut call: impl FnMut(&mut C)) -> f64 {
    let mut took = Duration::ZERO;
    for _ in 0..ROUNDS {
        cases.iter_mut().for_each(&mut renew);
        let start = Instant::now();
        cases.iter_mut().for_each(&mut call);
        took += start.elapsed();
    }
    took.as_nanos() as f64 / (ROUNDS * cases.len()) as f64
}

#[inline(always)]
fn enter<T: Table>(table: &mut T, id: u32, type_number: u8) {
    let answer = black_box(table).enter(black_box(id), black_box(type_number));
    assert!(black_box(answer).is_ok(), "the request is entered");
}

#[inline(always)]
fn arrive<T: Table>(table: &mut T, reply: &[u8]) {
    let answer = black_box(table).arrive(black_box(reply));
    assert!(black_box(answer).is_ok(), "the reply is accepted");
}
