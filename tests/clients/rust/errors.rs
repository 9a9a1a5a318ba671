//! Each refusal comes where the documents say, changes nothing, and is passed on by `?`. All that is public has a text for the message of a
//! panic.
use flatpq::{Due, Error, Keeping, NotPushed, Options, Pushed, Queue, TaskQueue, Until};
use std::error::Error as _;
use std::fmt::Debug;
use std::io;
use std::time::{Duration, Instant};

fn opened(options: Options) -> Result<Queue, Error> {
    options.open()
}

#[test]
fn openings_are_refused() {
    let options = Options::new();
    assert!(opened(options.members(64).keeping(Keeping::Fills(1_048_576))).is_ok());
    assert!(opened(options.members(0).keeping(Keeping::Forgets(0))).is_ok());
    for refused in [
        options.members(65),
        options.keeping(Keeping::Fills(0)),
        options.keeping(Keeping::Fills(1_048_577)),
        options.keeping(Keeping::Forgets(15)),
        options.keeping(Keeping::Refuses(16_777_217)),
    ] {
        assert_eq!(opened(refused).unwrap_err(), Error::BadOption);
    }
    for unit in [Duration::ZERO, Duration::MAX] {
        let options = options.times(Instant::now(), unit);
        let opened: Result<Queue, Error> = options.open();
        assert_eq!(opened.unwrap_err(), Error::BadOption);
    }
}

#[test]
fn a_full_journal_stays_full() {
    let queue = opened(Options::new().keeping(Keeping::Fills(2))).unwrap();
    queue.push(2, 1).unwrap();
    queue.push(1, 2).unwrap();
    assert_eq!(queue.push(0, 3).unwrap_err().error, Error::JournalFull);
    assert_eq!(queue.pop(), Err(Error::JournalFull));
    assert_eq!(queue.peek(), Ok(Some(1)));
    assert_eq!(queue.pop_due(9), Err(Error::JournalFull));
    assert_eq!(queue.take(), Err(Error::JournalFull));
    let refused = queue.push_many([(3, 4), (5, 6)]).unwrap_err();
    assert_eq!(refused.payloads, [(3, 4), (5, 6)]);
    assert_eq!(
        (refused.error, refused.pushed),
        (Error::JournalFull, Pushed::default())
    );
    assert!(refused.to_string().contains("pushed 0 and no more"));
    assert_eq!(queue.pop_due_many(9, 2), Err(Error::JournalFull));
    assert_eq!(queue.drain().count(), 1);
    let mut journal = queue.close().unwrap();
    assert!(journal.left().eq([(1, 2), (2, 1)]) && journal.len() == 2);
}

#[test]
fn a_batch_that_is_refused_in_its_midst_keeps_what_it_took() {
    let queue = opened(Options::new().keeping(Keeping::Fills(3024))).unwrap();
    queue.push_many((0..2000).map(|it| (it, it))).unwrap();
    let taken = queue.pop_due_many(u64::MAX, usize::MAX).unwrap();
    assert_eq!((taken.len(), queue.len()), (1024, Ok(976)));
}

#[test]
fn a_batch_has_the_number_of_its_first_entry() {
    let queue = opened(Options::new().keeping(Keeping::Fills(9))).unwrap();
    let mut member = queue.join().unwrap();
    queue.push(9, 9).unwrap();
    let pushed = member.push_many([(2, 1), (1, 2)]).unwrap();
    assert_eq!((pushed.count, pushed.number, member.number()), (2, 2, 2));
    assert_eq!(member.pop_due_many(5, 9), Ok(vec![(1, 2), (2, 1)]));
    assert_eq!(member.number(), 4);
    assert_eq!(
        (member.pop_due_many(5, 9), member.number()),
        (Ok(vec![]), 0)
    );
    assert_eq!(member.push_many([]).unwrap(), Pushed::default());
    let refused = member.push_many((1..8).map(|it| (it, it))).unwrap_err();
    assert_eq!(
        (refused.error, refused.payloads.len()),
        (Error::JournalFull, 3)
    );
    assert_eq!(
        (refused.pushed.count, refused.pushed.number, member.number()),
        (4, 6, 6)
    );
}

/// A call with a deadline returns this error once that has come.
fn times_out<T: Debug>(call: impl FnOnce(Instant) -> Result<T, Error>) {
    let deadline = Instant::now() + Duration::from_millis(20);
    assert_eq!(call(deadline).unwrap_err(), Error::TimedOut);
    assert!(Instant::now() >= deadline);
}

/// Of a queue whose only member is joined. They have done nothing, and payloads come back.
#[test]
fn calls_end_by_their_deadlines() {
    let queue: TaskQueue<u64, String> = Options::new().members(1).open().unwrap();
    let mut member = queue.join().unwrap();
    let pair = || (1, "text".to_string());
    times_out(|at| {
        let refused = queue.until(at).push(1, "text".to_string()).unwrap_err();
        assert_eq!(refused.payload, "text");
        Err::<(), _>(refused.error)
    });
    times_out(|at| {
        let refused = queue.until(at).push_many([pair(), pair()]).unwrap_err();
        assert_eq!(refused.payloads, [pair(), pair()]);
        Err::<(), _>(refused.error)
    });
    times_out(|at| queue.until(at).pop());
    times_out(|at| queue.until(at).peek());
    times_out(|at| queue.until(at).pop_due(9));
    times_out(|at| queue.until(at).pop_due_many(9, 9));
    times_out(|at| queue.until(at).take_due());
    times_out(|at| queue.until(at).archive(0));
    times_out(|at| queue.until(at).len());
    let deadline = Instant::now() + Duration::from_millis(20);
    assert_eq!(queue.until(deadline).take(), Ok(None));
    assert!(Instant::now() >= deadline);
    for past in [Until::NOW, deadline.into(), Until::from(Duration::ZERO)] {
        assert_eq!(queue.until(past).pop(), Err(Error::TimedOut));
    }
    assert_eq!((member.pop(), member.number()), (Ok(None), 1));
}

/// An iterator that begins anew after its end is not asked again.
#[test]
fn a_refused_batch_ends_with_its_iterator() {
    let queue = Queue::new().unwrap();
    queue.shut().unwrap();
    let mut next = 0;
    let payloads = std::iter::from_fn(|| {
        next += 1;
        (next != 3).then_some((next, next))
    });
    let refused = queue.push_many(payloads).unwrap_err();
    assert_eq!(
        (refused.error, refused.payloads),
        (Error::Shut, vec![(1, 1), (2, 2)])
    );
}

#[test]
fn what_is_not_archived_is_not_forgotten() {
    let queue = opened(Options::new().keeping(Keeping::Refuses(64))).unwrap();
    queue.push_many((0..64).map(|it| (it, it))).unwrap();
    assert_eq!(queue.pop(), Err(Error::Unarchived));
    assert_eq!(queue.archive(0).unwrap().len(), 64);
    assert_eq!(queue.archive(2).unwrap().before(), 2);
    assert_eq!(queue.pop_due_many(9, 9).unwrap(), [(0, 0), (1, 1)]);
    assert_eq!(queue.archive(1).unwrap_err(), Error::Forgotten);
}

#[test]
fn members_hold_a_queue_open() {
    let queue = opened(Options::new().members(1)).unwrap();
    let mut member = queue.join().unwrap();
    assert_eq!(queue.join().unwrap_err(), Error::AllJoined);
    let soon = Instant::now() + Duration::from_millis(20);
    assert_eq!(queue.join_until(soon).unwrap_err(), Error::AllJoined);
    assert!(Instant::now() >= soon);
    let refused = queue.close().unwrap_err();
    let text = format!("not closed: {}", Error::MembersLeft);
    assert_eq!(refused.to_string(), text);
    assert_eq!(refused.source().unwrap().to_string(), text[12..]);
    assert_eq!(Error::from(refused), Error::MembersLeft);
    // It outlives its queue, and shuts it.
    member.push(1, 2).unwrap();
    member.shut().unwrap();
    assert_eq!(
        (member.take(), member.take()),
        (Ok((1, 2)), Err(Error::Shut))
    );
}

fn pushed(queue: &TaskQueue<u64, String>) -> Result<u64, Error> {
    Ok(queue.push(1, "text".to_string())?)
}

fn pushed_in_a_box(queue: &TaskQueue<u64, String>) -> Result<u64, Box<dyn std::error::Error>> {
    Ok(queue.join()?.push(1, "text".to_string())?)
}

fn closed(queue: TaskQueue<u64, String>) -> Result<usize, Error> {
    Ok(queue.close()?.left().count())
}

#[test]
fn a_question_mark_passes_them_on() {
    let queue = TaskQueue::new().unwrap();
    assert_eq!(pushed(&queue), Ok(1));
    assert_eq!(pushed_in_a_box(&queue).unwrap(), 2);
    queue.shut().unwrap();
    assert_eq!(pushed(&queue), Err(Error::Shut));
    let refused = queue.push(1, String::new()).unwrap_err();
    assert_eq!(refused.to_string(), format!("not pushed: {}", Error::Shut));
    let text = refused.source().unwrap().to_string();
    assert_eq!(text, Error::Shut.to_string());
    assert!(text.contains("shut"), "{text}");
    let boxed = pushed_in_a_box(&queue).unwrap_err();
    assert_eq!(boxed.to_string(), refused.to_string());
    assert_eq!(io::Error::from(refused).to_string(), text);
    assert_eq!(closed(queue), Ok(2));
}

fn begins(value: &impl Debug, name: &str) {
    let text = format!("{value:?}");
    assert!(text.starts_with(name), "{text}");
}

/// Payloads need no text of their own.
#[test]
fn all_that_is_public_has_a_text() {
    struct Silent;
    let queue: TaskQueue<i8, Silent> = TaskQueue::new().unwrap();
    begins(&queue, "TaskQueue");
    begins(&queue.take_async(), "Take");
    begins(&queue.take_due_async(|_| std::future::ready(())), "TakeDue");
    begins(&queue.until(Until::NOW), "Limited { until: 0");
    begins(&queue.listener().unwrap(), "Listener { member: TaskMember");
    let mut member = queue.join().unwrap();
    begins(&member, "TaskMember { place: ");
    member.push(1, Silent).unwrap();
    begins(&queue.archive(0).unwrap(), "Journal { entries: 1");
    begins(&queue.drain(), "Drain");
    begins(&queue.archive(0).unwrap().iter(), "Iter");
    let refused = queue.close().unwrap_err();
    begins(&refused, "NotClosed { error: MembersLeft");
    member.shut().unwrap();
    let back = member.push(1, Silent).unwrap_err();
    begins(&back, "NotPushed { error: Shut");
    drop(member);
    begins(&refused.queue.close().unwrap(), "TaskJournal { entries: 2");
    begins(&Options::new(), "Options");
}

#[test]
fn they_are_compared_and_cloned_where_payloads_are() {
    let queue = Queue::new().unwrap();
    assert_eq!(queue.push(1, 2), Ok(1));
    assert_eq!(queue.push_many([(3, 4)]).map(|it| it.count), Ok(1));
    queue.shut().unwrap();
    let error = Error::Shut;
    assert_eq!(queue.push(5, 6), Err(NotPushed { payload: 6, error }));
    let refused = queue.push_many([(5, 6)]);
    assert_eq!(refused.clone(), refused);
    // There are three cases, and no other.
    let found = match queue.pop_due(2).unwrap() {
        Due::Got(key, number) => [key, number],
        Due::Later(key) => [key, 0],
        Due::Empty => [0, 0],
    };
    assert_eq!(found, [1, 2]);
}

#[test]
fn their_kinds_are_those_of_io() {
    use io::ErrorKind::{BrokenPipe, Other, OutOfMemory, TimedOut, WouldBlock};
    for (error, kind) in [
        (Error::TimedOut, TimedOut),
        (Error::NoMemory, OutOfMemory),
        (Error::Shut, BrokenPipe),
        (Error::Full, WouldBlock),
        (Error::AllJoined, Other),
    ] {
        assert_eq!(io::Error::from(error).kind(), kind);
    }
}
