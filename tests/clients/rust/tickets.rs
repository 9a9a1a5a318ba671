//! Removals and moves by ticket: what they return, and that each payload comes out once and is dropped once, whichever of moves, removals, pops
//! and clears gets to it first.
use flatpq::{Error, Item, Keeping, Options, Request, TaskQueue, Until};
use std::sync::atomic::{AtomicU32, AtomicU64, Ordering};
use std::thread;

fn with_tickets<T: Send>() -> TaskQueue<i32, T> {
    Options::new().tickets(true).open().unwrap()
}

#[test]
fn a_payload_stays_where_it_is_while_it_is_moved() {
    let queue = with_tickets();
    let payload = Box::new([7_u64; 3]);
    let address: *const [u64; 3] = &*payload;
    let ticket = queue.push(5, payload).unwrap();
    queue.push(-1, Box::new([1; 3])).unwrap();
    let moved = queue.reschedule(ticket, -2).unwrap().unwrap();
    assert_eq!((moved, queue.peek()), (3, Ok(Some(-2))));
    assert_eq!(
        (queue.remove(ticket), queue.reschedule(ticket, 4)),
        (Ok(None), Ok(None))
    );
    let (key, removed) = queue.remove(moved).unwrap().unwrap();
    assert!(key == -2 && std::ptr::eq(address, &*removed));
    assert_eq!(queue.pop(), Ok(Some((-1, Box::new([1; 3])))));
    assert_eq!(
        (queue.remove(2), queue.remove(u64::MAX), queue.len()),
        (Ok(None), Ok(None), Ok(0))
    );
}

#[test]
fn equal_keys_come_out_in_the_order_of_their_pushes_and_moves() {
    let queue = with_tickets();
    let mut member = queue.join().unwrap();
    let tickets: Vec<u64> = (0..4).map(|it| member.push(it, it).unwrap()).collect();
    for (at, key) in [(0, 3), (2, 3), (1, 2)] {
        let moved = member.reschedule(tickets[at], key).unwrap();
        assert_eq!(moved, Some(member.number()));
    }
    let order: Vec<_> = queue.drain().map(|it| it.unwrap()).collect();
    assert_eq!(order, [(2, 1), (3, 3), (3, 0), (3, 2)]);
}

#[test]
fn each_refusal_changes_nothing() {
    let queue = TaskQueue::new().unwrap();
    let ticket = queue.push(1, "one").unwrap();
    assert_eq!(queue.remove(ticket), Err(Error::NoTickets));
    assert_eq!(queue.reschedule(ticket, 2), Err(Error::NoTickets));
    let options = Options::new().tickets(true).keeping(Keeping::Fills(1));
    let queue = options.open().unwrap();
    let ticket = queue.push(1, "one").unwrap();
    assert_eq!(queue.remove(ticket), Err(Error::JournalFull));
    assert_eq!(queue.reschedule(ticket, 2), Err(Error::JournalFull));
    assert_eq!(queue.close().unwrap().left().next(), Some((1, "one")));
}

/// A bounded queue that is full, or shut, lets both through.
#[test]
fn neither_needs_room() {
    let options = Options::new().tickets(true).most_items(1);
    let queue: TaskQueue<u64, u32> = options.open().unwrap();
    let ticket = queue.push(5, 50).unwrap();
    assert_eq!(
        queue.until(Until::NOW).push(6, 60).unwrap_err().error,
        Error::Full
    );
    let moved = queue.until(Until::NOW).reschedule(ticket, 7).unwrap();
    queue.shut().unwrap();
    let moved = queue.reschedule(moved.unwrap(), 8).unwrap();
    assert_eq!(
        queue.until(Until::NOW).remove(moved.unwrap()),
        Ok(Some((8, 50)))
    );
    assert_eq!(queue.take(), Err(Error::Shut));
}

#[test]
fn journals_have_both() {
    let queue: TaskQueue<u64, u64> = Options::new().tickets(true).open().unwrap();
    let ticket = queue.push(5, 1).unwrap();
    let moved = queue.reschedule(ticket, 9).unwrap().unwrap();
    queue.remove(moved).unwrap();
    assert_eq!(queue.reschedule(moved, 3), Ok(None));
    let journal = queue.archive(0).unwrap();
    let texts: Vec<String> = journal.iter().map(|it| it.to_string()).collect();
    assert_eq!(
        texts[1..],
        [
            "2 0 2 move 1 9 got 5 1",
            "3 0 3 remove 2 got 9 1",
            "4 0 4 move 2 3 empty"
        ]
    );
    let entry = journal.get(1).unwrap();
    let (ticket, priority, value) = (1, 9, 1);
    assert_eq!(entry.request, Request::Reschedule { ticket, priority });
    assert_eq!(entry.item, Some(Item { priority: 5, value }));
    assert_eq!(journal.get(2).unwrap().request, Request::Remove(2));
}

const PAYLOADS: usize = 400;
const ROUNDS: usize = 20;

/// How often each payload was dropped, and its last ticket.
struct Records {
    drops: Vec<AtomicU32>,
    tickets: Vec<AtomicU64>,
}

struct Counted<'a>(usize, &'a Records);

impl Drop for Counted<'_> {
    fn drop(&mut self) {
        self.1.drops[self.0].fetch_add(1, Ordering::Relaxed);
    }
}

impl Records {
    fn new() -> Records {
        Records {
            drops: (0..PAYLOADS).map(|_| AtomicU32::new(0)).collect(),
            tickets: (0..PAYLOADS).map(|_| AtomicU64::new(0)).collect(),
        }
    }

    fn fill<'a>(&'a self, queue: &TaskQueue<i32, Counted<'a>>) {
        for (number, ticket) in self.tickets.iter().enumerate() {
            let pushed = queue
                .push(number as i32 % 9, Counted(number, self))
                .unwrap();
            ticket.store(pushed, Ordering::Relaxed);
        }
    }

    fn ticket(&self, number: usize) -> u64 {
        self.tickets[number].load(Ordering::Relaxed)
    }

    /// Moves each payload, and notes its ticket.
    fn moves(&self, mut reschedule: impl FnMut(u64, i32) -> Result<Option<u64>, Error>) {
        for number in (0..PAYLOADS).rev() {
            if let Some(moved) = reschedule(self.ticket(number), -(number as i32) % 7).unwrap() {
                self.tickets[number].store(moved, Ordering::Relaxed);
            }
        }
    }

    /// Removes each payload: what comes out has its number, and was not dropped before.
    fn removes<'a>(
        &'a self,
        mut remove: impl FnMut(u64) -> Result<Option<(i32, Counted<'a>)>, Error>,
    ) {
        for number in 0..PAYLOADS {
            if let Some((_, removed)) = remove(self.ticket(number)).unwrap() {
                assert_eq!(
                    (removed.0, self.drops[number].load(Ordering::Relaxed)),
                    (number, 0)
                );
            }
        }
    }

    fn are_dropped_once(&self) {
        assert!(self.drops.iter().all(|it| it.load(Ordering::Relaxed) == 1));
    }
}

/// Threads that pop or clear until the queue is empty: a move hides no payload from them.
#[test]
fn each_comes_out_once_beside_pops_and_clears() {
    for _ in 0..ROUNDS {
        let records = Records::new();
        let queue = with_tickets();
        records.fill(&queue);
        thread::scope(|threads| {
            threads.spawn(|| records.moves(|ticket, key| queue.reschedule(ticket, key)));
            threads.spawn(|| records.removes(|ticket| queue.remove(ticket)));
            threads.spawn(|| while queue.pop().unwrap().is_some() {});
            threads.spawn(|| queue.clear().unwrap());
        });
        records.are_dropped_once();
        assert_eq!(queue.len(), Ok(0));
    }
}
