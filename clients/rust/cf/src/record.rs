//! When the events of one request were done, in few bytes. The words themselves are the machine's.
use std::mem::take;

#[derive(Clone, Debug, Default)]
pub(crate) struct EventTimes {
    /// Of each moment at which there were events, but for the last one, how many nanoseconds later it was than the one before, and in the lowest
    /// bits how many events there were. Where these are 0, a part of the while before the next moment, in units of 134 ms.
    moments: Vec<u32>,
    /// The last one of these moments.
    before: u64,
    /// The moment of what is done at present, in nanoseconds since the request began.
    now: u64,
    /// How many events there were, and how many of them were at the moments that are written down.
    count: u64,
    written: u64,
}

/// How many bits say how many events there were, the most that they say, and the longest while that the others do, 134 ms.
const BITS: u32 = 5;
const MOST: u64 = (1 << BITS) - 1;
const LONGEST: u64 = (u32::MAX >> BITS) as u64;

impl EventTimes {
    /// Of no events, with this room.
    pub(crate) fn with_room_of(moments: Vec<u32>) -> EventTimes {
        EventTimes { moments, ..EventTimes::default() }
    }

    /// The room that it had.
    pub(crate) fn take_room(&mut self) -> Vec<u32> {
        self.moments.clear();
        take(&mut self.moments)
    }

    /// It is this moment now, or a later one if there was one.
    #[inline]
    pub(crate) fn advance(&mut self, now: u64) {
        if now > self.now {
            if self.count > self.written {
                self.write_moment();
            }
            self.now = now;
        }
    }

    #[inline]
    pub(crate) fn now(&self) -> u64 {
        self.now
    }

    /// So many events are done now.
    #[inline]
    pub(crate) fn note_events(&mut self, events: u64) {
        self.count += events;
    }

    #[inline]
    fn write_moment(&mut self) {
        if self.now - self.before > LONGEST || self.count - self.written > MOST {
            self.write_parts();
        }
        self.write(self.now - self.before, self.count - self.written);
    }

    /// Writes down what one number can't hold, so that one is enough for what is left.
    #[cold]
    fn write_parts(&mut self) {
        while self.now - self.before > LONGEST {
            let units = LONGEST.min((self.now - self.before) / (LONGEST + 1));
            let reached = self.before + units * (LONGEST + 1);
            self.write(units, 0);
            self.before = reached;
        }
        while self.count - self.written > MOST {
            self.write(self.now - self.before, MOST);
        }
    }

    #[inline]
    fn write(&mut self, later: u64, events: u64) {
        if self.moments.len() == self.moments.capacity() {
            self.make_room();
        }
        self.moments.push((later << BITS | events) as u32);
        self.before = self.now;
        self.written += events;
    }

    /// The row grows by a quarter, since there are many that grow no more.
    #[cold]
    fn make_room(&mut self) {
        self.moments.reserve_exact(16 + self.moments.len() / 4);
    }

    /// The moment of each event.
    pub(crate) fn moments(&self) -> impl Iterator<Item = u64> + '_ {
        let mut at = 0;
        let written = self.moments.iter().map(move |moment| {
            let (later, events) = unpack(*moment);
            at += if events > 0 { later } else { later * (LONGEST + 1) };
            (at, events)
        });
        written.chain([(self.now, self.count - self.written)]).flat_map(|(at, count)| (0..count).map(move |_| at))
    }

    /// How many events there were.
    #[inline]
    pub(crate) fn event_count(&self) -> usize {
        self.count as usize
    }
}

/// How much later a moment was, and how many events there were.
fn unpack(moment: u32) -> (u64, u64) {
    (u64::from(moment >> BITS), u64::from(moment) & MOST)
}

#[cfg(test)]
mod tests {
    use super::*;

    /// Around the most events and the longest while that one number says. A moment is written once.
    #[test]
    fn times_are_read_at_the_bounds_of_a_number() {
        let (mut record, mut wanted, mut at) = (EventTimes::default(), Vec::new(), 0);
        for later in [1, LONGEST - 1, LONGEST, LONGEST + 1, LONGEST + 2, 2 * LONGEST + 1, 2 * LONGEST + 2] {
            for count in [1, MOST - 1, MOST, MOST + 1, MOST + 2, 2 * MOST, 2 * MOST + 1] {
                at += later;
                for _ in 0..count {
                    record.advance(at);
                    record.note_events(1);
                    wanted.push(at);
                }
            }
        }
        assert_eq!((record.moments().collect::<Vec<_>>(), record.event_count()), (wanted.clone(), wanted.len()));
        let mut one = EventTimes::default();
        for _ in 0..MOST {
            one.advance(1);
            one.note_events(1);
        }
        one.advance(2);
        assert_eq!(one.moments, [(1 << BITS | MOST) as u32]);
    }

    #[test]
    fn times_are_read_as_they_were_written() {
        let (mut record, mut wanted, mut at) = (EventTimes::default(), Vec::new(), 0);
        for k in 0..2000_u64 {
            // Up to a week.
            at += if k % 3 == 0 { 1 << (k % 50) } else { 0 };
            record.advance(at);
            record.note_events(1);
            wanted.push(at);
            // A clock that goes back has stood.
            if k % 500 == 1 {
                record.advance(at - 1);
                record.note_events(1);
                wanted.push(at);
            }
        }
        // More at one moment than a number says.
        for _ in 0..70_000 {
            record.note_events(1);
            wanted.push(at);
        }
        assert_eq!(record.moments().collect::<Vec<_>>(), wanted);
        record.advance(at + 5);
        record.note_events(1);
        wanted.push(at + 5);
        assert_eq!(record.moments().collect::<Vec<_>>(), wanted);
        assert_eq!((record.event_count(), EventTimes::default().event_count(), EventTimes::default().moments().count()), (wanted.len(), 0, 0));
    }
}
