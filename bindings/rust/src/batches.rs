//! Batches: what is pushed or taken out under one lock.
use crate::after;
use crate::calls::Call;
use crate::error::{Error, NotAllPushed};
use crate::journal::Item;
use crate::key::Key;
use crate::payload::{self, payload_of, value_of};
use crate::raw;
use std::iter;
use std::marker::PhantomData;
use std::mem::size_of;

/// A batch of pops first asks for memory for so many bytes of payloads, or for one payload, and then for as many again.
const PART: usize = 1 << 16;

/// What a batch of pushes put in.
#[derive(Clone, Copy, Debug, Default, PartialEq, Eq)]
pub struct Pushed {
    /// How many payloads.
    pub count: usize,
    /// The number of the first one's journal entry; 0 if it put none in. Up to 64 payloads have consecutive entries, unless some waited for
    /// room.
    pub number: u64,
}

/// Items that no queue has. Their payloads are dropped with this.
struct Batch<T> {
    items: Vec<Item>,
    payloads: PhantomData<T>,
}

impl<T> Batch<T> {
    fn new() -> Batch<T> {
        Batch {
            items: Vec::new(),
            payloads: PhantomData,
        }
    }

    /// Takes their payloads out.
    fn back(mut self) -> impl Iterator<Item = T> {
        // SAFETY: no queue has them, and each is taken out once.
        let payload = |it: Item| unsafe { payload_of(it.value) };
        self.items.reverse();
        iter::from_fn(move || self.items.pop().map(payload))
    }
}

impl<T> Drop for Batch<T> {
    fn drop(&mut self) {
        // SAFETY: as above.
        let dropped = |it: Item| unsafe { payload::dropped::<T>(it.value) };
        drop(self.items.drain(..).map(dropped).collect::<Vec<_>>());
    }
}

impl<K: Key, T: Send> Call<'_, K, T> {
    pub fn push_many(
        &self,
        payloads: impl IntoIterator<Item = (K, T)>,
    ) -> Result<Pushed, NotAllPushed<K, T>> {
        let (mut keys, mut batch, mut refused) = (Vec::new(), Batch::new(), None);
        let mut payloads = payloads.into_iter();
        for (key, payload) in &mut payloads {
            let priority = self.shared.times.priority_of(key);
            match value_of(payload) {
                Ok(value) => batch.items.push(Item { priority, value }),
                Err(payload) => {
                    refused = Some((key, payload));
                    break;
                }
            }
            keys.push(key);
        }
        let mut pushed = Pushed::default();
        let result = match &refused {
            Some(_) => Err(Error::NoMemory),
            None => {
                let put = |until| self.put_all(&mut batch, until, &mut pushed);
                Error::unless_ok(self.puts(put))
            }
        };
        self.has_number(pushed.number);
        let rest = refused.is_some().then_some(payloads);
        result.map(|()| pushed).map_err(|error| NotAllPushed {
            payloads: keys
                .drain(pushed.count..)
                .zip(batch.back())
                .chain(refused)
                .chain(rest.into_iter().flatten())
                .collect(),
            error,
            pushed,
        })
    }

    // Pushes a batch until then: its code.
    fn put_all(&self, batch: &mut Batch<T>, until: u64, pushed: &mut Pushed) -> u32 {
        let (at, count) = (batch.items.as_ptr(), batch.items.len());
        let (mut done, mut number) = (0, 0);
        // SAFETY: the member is there, and in this call alone; the others are borrowed for it.
        let code =
            unsafe { raw::pq_push_many(self.member, at, count, until, &mut done, &mut number) };
        if pushed.count == 0 {
            pushed.number = number;
        }
        batch.items.drain(..done);
        pushed.count += done;
        code
    }

    fn puts(&self, mut put: impl FnMut(u64) -> u32) -> u32 {
        match after::calling(|| put(self.at_first())) {
            code if self.waits_for_room(code) => after::waiting(|| put(self.until)),
            code => code,
        }
    }

    pub fn pop_due_many(&self, key: K, most: usize) -> Result<Vec<(K, T)>, Error> {
        let priority = self.shared.times.priority_of(key);
        let mut taken = Vec::new();
        // There may be no memory for as many as the program would take.
        let part = (PART / size_of::<T>().max(64)).max(1);
        loop {
            let (before, room) = (taken.len(), (most - taken.len()).min(part));
            match self.takes_many(&mut taken, room, priority) {
                Err(error) if before == 0 => return Err(error),
                Ok(()) if taken.len() == before + room && taken.len() < most => (),
                _ => break,
            }
        }
        let keyed = |(priority, payload)| (self.shared.times.key_of(priority), payload);
        Ok(taken.into_iter().map(keyed).collect())
    }

    // Takes so many of the first payloads out at most.
    fn takes_many(
        &self,
        taken: &mut Vec<(u64, T)>,
        room: usize,
        priority: u64,
    ) -> Result<(), Error> {
        let mut items: Vec<Item> = Vec::new();
        let reserved = items.try_reserve_exact(room).and(taken.try_reserve(room));
        reserved.map_err(|_| Error::NoMemory)?;
        let (member, at, until) = (self.member, items.as_mut_ptr(), self.until);
        let (mut done, mut number) = (0, 0);
        after::calling(|| {
            // SAFETY: the member is there, and in this call alone; the items have the room.
            let code = unsafe {
                raw::pq_pop_due_many(member, priority, at, room, until, &mut done, &mut number)
            };
            if taken.is_empty() {
                self.has_number(number);
            }
            // SAFETY: the call has written so many.
            unsafe { items.set_len(done) };
            // SAFETY: the call took them out of a queue of such payloads.
            taken.extend(
                items
                    .iter()
                    .map(|it| (it.priority, unsafe { payload_of(it.value) })),
            );
            match code {
                raw::OK | raw::EMPTY | raw::NOT_DUE => Ok(()),
                code => Err(Error::of(code)),
            }
        })
    }
}
