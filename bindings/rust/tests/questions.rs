//! What a light shows, against what *cover* says of every byte, over histories of steps on lent tables.

mod common;

use common::Lent;
use saltbalance::{Answer, Id, Keeper, Lengths, Millis, Refusal, Shape, State, View};

/// Tables, and what a caller knows of them from the answers alone.
struct History {
    shape: Shape,
    lent: Lent,
    /// The blocks granted and not given back, each with its thread.
    held: Vec<(usize, Id)>,
    /// Which threads have a call open.
    open: Vec<bool>,
    /// The keepers that were named: nobody, a call, a block.
    keepers: [usize; 3],
    random: u64,
}

impl History {
    fn new(shape: Shape, seed: u64) -> History {
        let open = vec![false; shape.threads];
        History { shape, lent: Lent::fresh(shape), held: Vec::new(), open, keepers: [0; 3], random: seed }
    }

    /// A number below a bound, another one each time.
    fn below(&mut self, bound: usize) -> usize {
        self.random ^= self.random << 13;
        self.random ^= self.random >> 7;
        self.random ^= self.random << 17;
        (self.random >> 16) as usize % bound
    }

    /// One step, mostly of the thread that runs: it goes on where its call is open, else asks for a size or gives a block back. Where the
    /// thread waits, the clock ticks.
    fn step(&mut self) {
        let (shape, wait, other) = (self.shape, Millis(self.below(30) as i32), self.below(8 * self.shape.threads));
        let thread = if other < shape.threads { other } else { self.lent.device.thread().unwrap_or(0) };
        let size = self.below(shape.top_size + 1) >> self.below(6);
        let own: Vec<Id> = self.held.iter().filter(|&&(owner, _)| owner == thread).map(|&(_, id)| id).collect();
        let choice = self.below(2 + own.len());
        let open = self.open[thread];
        let given = own.get(choice.wrapping_sub(2)).copied();
        let answer = self.lent.tables(|device, mut tables| match (tables.switch(device, shape, thread), given) {
            (Err(_), _) => tables.tick(device, shape),
            _ if open => tables.go_on(device, shape, thread),
            (_, Some(id)) => tables.give_back(*device, shape, thread, id),
            (_, None) => tables.ask(*device, shape, thread, size, wait),
        });
        self.note(thread, given.filter(|_| !open), answer);
    }

    /// What the caller learns from an answer.
    fn note(&mut self, thread: usize, given: Option<Id>, answer: Result<Answer, Refusal>) {
        match answer {
            Ok(Answer::Opened) => {
                self.open[thread] = true;
                self.held.retain(|&(_, id)| Some(id) != given);
            }
            Ok(Answer::Granted { id }) => {
                self.open[thread] = false;
                self.held.push((thread, id));
            }
            Ok(Answer::Settled { .. }) | Err(Refusal::NoRoom | Refusal::TimedOut) => self.open[thread] = false,
            Ok(_) => {}
            Err(refusal) => panic!("{refusal}"),
        }
    }

    /// Every question answers what the blocks over all bytes say.
    fn compare(&mut self) {
        let (shape, device) = (self.shape, self.lent.device);
        let (held, open, keepers) = (&self.held, &self.open, &mut self.keepers);
        self.lent.tables(|_, tables| {
            let view = tables.view();
            let over: Vec<_> = (0..shape.bytes()).map(|offset| view.cover(device, shape, offset).unwrap()).collect();
            let count = |state| over.iter().filter(|block| block.state == state).count();
            let bytes = view.bytes_by_state(device, shape).unwrap();
            let states = [State::Allocated, State::Free, State::Freeing, State::Allocating];
            assert_eq!([bytes.allocated, bytes.free, bytes.freeing, bytes.allocating], states.map(count));
            assert_eq!(view.free_bytes(device, shape), Ok(count(State::Free)));

            let free = over.iter().filter(|block| block.state == State::Free).map(|block| block.id.size(&shape));
            assert_eq!(view.largest_size(device, shape), Ok(free.max()));

            let holder = |id: Id| held.iter().find(|&&(_, block)| block == id).map(|&(thread, _)| thread);
            for thread in 0..shape.threads {
                let bytes = over.iter().filter(|block| holder(block.id) == Some(thread)).count();
                assert_eq!(view.held_bytes(device, shape, thread), Ok(bytes));
            }

            let call = open.iter().position(|&open| open).map(|thread| Keeper::Call { thread });
            let block = over.iter().find(|block| block.state != State::Free);
            let block = block.map(|block| Keeper::Block { id: block.id, thread: holder(block.id).unwrap_or(usize::MAX) });
            let keeper = call.or(block);
            assert_eq!(view.keeper(device, shape), Ok(keeper));
            assert_eq!(keeper.is_none(), view.whole(device, shape) == Ok(Answer::Whole));
            keepers[usize::from(keeper.is_some()) + usize::from(call.is_none() && keeper.is_some())] += 1;
        });
    }

    /// A request for the largest size is granted, and one for a byte more is not, if there is a thread with no call open.
    fn grants_the_largest(&mut self) {
        let shape = self.shape;
        let Some(thread) = self.open.iter().position(|&open| !open) else { return };
        let largest = self.lent.tables(|device, tables| tables.view().largest_size(*device, shape)).unwrap();
        if let Some(size) = largest {
            assert!(matches!(granted(&self.lent, shape, thread, size), Ok(Answer::Granted { .. })));
        }
        let more = largest.map_or(0, |size| size + 1);
        let refusal = if more > shape.top_size { Refusal::SizeAboveTop } else { Refusal::NoRoom };
        assert_eq!(granted(&self.lent, shape, thread, more), Err(refusal));
    }
}

/// How a request that may not wait ends, tried on a copy of the tables.
fn granted(lent: &Lent, shape: Shape, thread: usize, size: usize) -> Result<Answer, Refusal> {
    lent.clone().tables(|device, mut tables| {
        tables.switch(device, shape, thread)?;
        tables.ask(*device, shape, thread, size, Millis::NONE)?;
        loop {
            let answer = tables.go_on(device, shape, thread)?;
            if matches!(answer, Answer::Granted { .. }) {
                return Ok(answer);
            }
        }
    })
}

/// How many steps a history has: SALTBALANCE_STEPS, else 1500.
fn steps() -> usize {
    std::env::var("SALTBALANCE_STEPS").map_or(1500, |steps| steps.parse().unwrap())
}

#[test]
fn the_questions_answer_what_lies_over_every_byte() {
    let shape = |pool, threads, levels, tops, top_size| Shape { pool, threads, levels, tops, top_size };
    let shapes = [shape(0, 1, 1, 1, 4), shape(1, 2, 2, 1, 64), shape(255, 3, 3, 2, 64), shape(7, 8, 5, 1, 1024), shape(9, 4, 1, 16, 16)];
    for (number, shape) in shapes.into_iter().enumerate() {
        let mut history = History::new(shape, 0x9e37_79b9_7f4a_7c15 + number as u64);
        history.compare();
        for _ in 0..steps() {
            history.step();
            history.compare();
            history.grants_the_largest();
        }
        assert!(history.keepers.iter().all(|&times| times > 0), "each is met: {shape:?}, {:?}", history.keepers);
    }
}

/// The refusals of the questions.
fn refusals(lent: &mut Lent, shape: Shape) -> [Option<Refusal>; 5] {
    let device = lent.device;
    let all = |view: View<'_>| {
        [
            view.free_bytes(device, shape).err(),
            view.bytes_by_state(device, shape).err(),
            view.largest_size(device, shape).err(),
            view.held_bytes(device, shape, shape.threads).err(),
            view.keeper(device, shape).err(),
        ]
    };
    lent.tables(|_, tables| all(tables.view()))
}

#[test]
fn the_questions_refuse_what_whole_refuses() {
    let shape = Shape { pool: 1, threads: 2, levels: 2, tops: 1, top_size: 64 };
    let mut lent = Lent::fresh(shape);
    assert_eq!(refusals(&mut lent, shape), [None, None, None, Some(Refusal::NoThread), None]);
    assert_eq!(refusals(&mut lent, Shape { levels: 0, ..shape }), [Some(Refusal::ShapeNotAllowed); 5]);
    lent.states[4] = 6;
    assert_eq!(refusals(&mut lent, shape), [Some(Refusal::NotValid); 5]);
    let mut nothing = Lent::zeros(Lengths { states: 0, owners: 0, lists: 0, calls: 0, queue: 0 });
    assert_eq!(refusals(&mut nothing, shape), [Some(Refusal::WrongLength); 5]);
}
