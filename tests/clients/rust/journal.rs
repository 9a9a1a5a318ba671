//! Journals: their entries by iterators, their text, and what writing them comes to.
use flatpq::{Error, Item, Keeping, NotReadBack, Options, Queue, ReadBack, Request, TaskJournal, TaskQueue, Until};
use std::fs::File;
use std::io::{self, Seek, Write};
use std::time::Duration;

fn item(priority: u64, value: u64) -> Option<Item> {
    Some(Item { priority, value })
}

/// The calls of one member, and the entries that they leave.
fn queue_with_entries() -> Queue {
    let queue = Queue::new().unwrap();
    let mut member = queue.join().unwrap();
    assert_eq!((member.pop(), member.number()), (Ok(None), 1));
    assert_eq!((member.peek_item(), member.peek()), (Ok(None), Ok(None)));
    assert_eq!((member.number(), member.pop()), (1, Ok(None)));
    assert_eq!(member.push(5, u64::MAX).unwrap(), 3);
    assert!(member.pop_due(4).is_ok() && member.number() == 0);
    assert!(member.take().is_ok() && member.number() == 4);
    assert_eq!((member.pop(), member.number()), (Ok(None), 5));
    queue
}

/// The text of the last three entries of those.
const TEXT: &str = "3 0 3 push 5 18446744073709551615 pushed 03a0e38f
4 0 4 pop got 5 18446744073709551615 e29542c5
5 0 5 pop empty 6137f72e
";

#[test]
fn entries_come_by_iterators() {
    let journal = queue_with_entries().close().unwrap();
    let (mut entries, max) = (journal.iter(), u64::MAX);
    assert_eq!((entries.len(), journal.len(), journal.before()), (5, 5, 0));
    let all: Vec<_> = journal.iter().map(|it| (it.request, it.item)).collect();
    assert_eq!(all[1], (Request::Pop, None));
    assert_eq!(all[2], (Request::Push, item(5, max)));
    assert_eq!(all[3], (Request::Pop, item(5, max)));
    assert_eq!(all[4], (Request::Pop, None));
    assert_eq!(entries.next(), journal.get(0));
    assert_eq!(entries.nth(2), journal.get(3));
    assert_eq!(
        entries.next().map(|it| (it.number, it.serial)),
        Some((5, 5))
    );
    assert_eq!(
        (entries.len(), entries.next(), journal.get(5)),
        (0, None, None)
    );
    assert_eq!((&journal).into_iter().count(), 5);
    let empty: Queue = Queue::new().unwrap();
    assert!(empty.close().unwrap().is_empty());
}

/// Fails where it is flushed.
struct Failing(Vec<u8>);

impl Write for Failing {
    fn write(&mut self, text: &[u8]) -> io::Result<usize> {
        self.0.write(text)
    }

    fn flush(&mut self) -> io::Result<()> {
        Err(io::ErrorKind::BrokenPipe.into())
    }
}

#[test]
fn entries_are_written_as_the_library_does() {
    let queue = queue_with_entries();
    let journal = queue.archive(2).unwrap();
    let mut text = Vec::new();
    journal.write_to(&mut text).unwrap();
    assert_eq!(String::from_utf8(text).unwrap(), TEXT);
    for (entry, line) in journal.iter().zip(TEXT.lines()) {
        let shown = entry.to_string();
        assert!(line.starts_with(&shown) && line.len() == shown.len() + " 12345678".len());
    }
    let full = File::options().write(true).open("/dev/full").unwrap();
    assert!(journal.write_to(&full).is_err());
    let mut failing = Failing(Vec::new());
    let kind = journal.write_to(&mut failing).map_err(|error| error.kind());
    assert_eq!(
        (kind, failing.0),
        (Err(io::ErrorKind::BrokenPipe), TEXT.into())
    );
}

#[test]
fn an_archive_that_goes_on_in_time_loses_no_entry() {
    let queue: Queue = Options::new().keeping(Keeping::Forgets(65_536)).open().unwrap();
    let (mut archived, mut sum) = (0, 0);
    for round in 0..4 {
        for number in 0..20_000 {
            queue.push(number, round).unwrap();
        }
        assert_eq!(queue.clear(), Ok(20_000));
        let journal = queue.archive(archived).unwrap();
        assert_eq!(journal.before(), archived);
        archived += journal.len() as u64;
        let pushed = journal.iter().filter(|it| it.request == Request::Push);
        sum += pushed.map(|it| it.item.unwrap().value).sum::<u64>();
    }
    assert_eq!((archived, sum), (160_000, 120_000));
    let journal = queue.close().unwrap();
    assert_eq!(
        (journal.len(), journal.before()),
        (65_536, 160_000 - 65_536)
    );
}

#[test]
fn a_queue_of_payloads_has_keys_and_tokens() {
    let queue = TaskQueue::new().unwrap();
    queue.push(-1_i64, "text".to_string()).unwrap();
    let journal = queue.archive(0).unwrap();
    let entry = journal.get(0).unwrap();
    assert_eq!(entry.item.map(|it| it.priority), Some((1 << 63) - 1));
    assert_eq!((entry.number, entry.serial), (1, 1));
    let queue: TaskQueue<u64, u8> = TaskQueue::new().unwrap();
    queue.push(5, 7).unwrap();
    assert_eq!(queue.archive(0).unwrap().get(0).unwrap().item, item(5, 7));
}

fn read_back(name: &str, text: &str) -> Result<ReadBack<u64, u64>, NotReadBack> {
    let path = std::env::temp_dir().join(format!("flatpq-{name}-{}", std::process::id()));
    let mut options = File::options();
    let mut file = options
        .read(true)
        .write(true)
        .create_new(true)
        .open(&path)
        .unwrap();
    std::fs::remove_file(&path).unwrap();
    file.write_all(text.as_bytes()).unwrap();
    file.rewind().unwrap();
    TaskJournal::read_from(&file)
}

const WRITTEN: &str = "1 0 1 push 5 7 pushed fd6f9793
2 0 2 push 6 8 pushed ea288e85
3 0 3 pop got 5 7 12a80e0a
";
const BYTES: u64 = WRITTEN.len() as u64;

#[test]
fn a_journal_is_read_back() {
    let mut read = read_back("whole", WRITTEN).unwrap();
    let mut written = Vec::new();
    read.journal.write_to(&mut written).unwrap();
    assert_eq!(String::from_utf8(written).unwrap(), WRITTEN);
    assert_eq!((read.lines, read.bytes, read.is_torn), (3, BYTES, false));
    assert_eq!(read.journal.left().collect::<Vec<_>>(), [(6, 8)]);
    let torn = read_back("torn", &format!("{WRITTEN}4 0 4 po")).unwrap();
    assert_eq!((torn.lines, torn.bytes, torn.is_torn), (3, BYTES, true));
    assert_eq!(torn.journal.len(), 3);
    let (line, bytes, error) = (4, BYTES, Error::NotLawful);
    let wanted = NotReadBack { line, bytes, error };
    let damaged = format!("{WRITTEN}4 0 4 pop got 6 8 12345678\n");
    assert_eq!(read_back("refused", &damaged).unwrap_err(), wanted);
    assert_eq!(wanted.to_string(), format!("line 4: {error}"));
    let folder = TaskJournal::<u64, u64>::read_from(File::open("/").unwrap());
    assert_eq!(folder.map_err(Error::from).err(), Some(Error::NotRead));
}

#[test]
fn a_shut_is_read_back() {
    let text = "1 0 1 push 5 7 pushed fd6f9793\n2 0 2 shut 858f5e52\n";
    let read = read_back("shut", text).unwrap();
    let entry = read.journal.get(1).unwrap();
    assert_eq!((entry.request, entry.item), (Request::Shut, None));
    assert_eq!(entry.to_string(), "2 0 2 shut");
    let mut written = Vec::new();
    read.journal.write_to(&mut written).unwrap();
    assert_eq!(String::from_utf8(written).unwrap(), text);
}

/// Only a journal of an earlier version, or of a program in Rattle, has entries of peeks.
#[test]
fn a_peek_is_read_back() {
    let text = "1 0 1 least empty\n2 0 2 push 5 7 pushed\n3 0 3 least least 5 7\n";
    let read = read_back("peek", text).unwrap();
    let all: Vec<_> = read.journal.iter().map(|it| (it.request, it.item)).collect();
    assert_eq!((all[0], all[2]), ((Request::Peek, None), (Request::Peek, item(5, 7))));
}

#[test]
fn a_shut_has_an_entry_and_an_archive_no_more_than_there_are() {
    let queue = Queue::new().unwrap();
    queue.push(5_u64, 7_u64).unwrap();
    queue.shut().unwrap();
    queue.shut().unwrap();
    assert_eq!(queue.archive(3).err(), Some(Error::BadOption));
    let journal = queue.archive(0).unwrap();
    let texts: Vec<String> = journal.iter().map(|entry| entry.to_string()).collect();
    assert_eq!(texts, ["1 0 1 push 5 7 pushed", "2 0 2 shut"]);
}

#[test]
fn a_wait_ends_once_the_entry_is_archived() {
    let queue = Queue::new().unwrap();
    let number = queue.push(5_u64, 7_u64).unwrap();
    let late = Err(Error::TimedOut);
    assert_eq!(queue.until(Until::NOW).wait_archived(number), late);
    let soon = queue.until(Duration::from_millis(2));
    assert_eq!(soon.wait_archived(number), late);
    std::thread::scope(|scope| {
        let waiting = scope.spawn(|| queue.wait_archived(number));
        queue.archive(number).unwrap();
        assert_eq!(waiting.join().unwrap(), Ok(()));
    });
}
