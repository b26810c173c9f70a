//! Who waits for the stages of a request.
use std::mem::take;
use std::task::Waker;

/// The wakers of handles that wait: for each stage a row. Places are numbered from 1 on, and those that are free stand in a row, too; 0 is no
/// place.
#[derive(Default)]
pub(crate) struct Wakers {
    places: Vec<WakerPlace>,
    free: u32,
    /// The first places of rows, by their stages, up to the last stage for which somebody has waited.
    firsts: Vec<u32>,
}

struct WakerPlace {
    waker: Option<Waker>,
    before: u32,
    next: u32,
}

impl Wakers {
    #[inline]
    fn place(&mut self, number: u32) -> &mut WakerPlace {
        &mut self.places[number as usize - 1]
    }

    /// Keeps a waker at the front of a stage's row. Its place.
    pub(crate) fn keep(&mut self, stage: u16, waker: Waker) -> u32 {
        let stage = usize::from(stage);
        if self.firsts.len() <= stage {
            self.firsts.resize(stage + 1, 0);
        }
        let first = self.firsts[stage];
        let place = WakerPlace { waker: Some(waker), before: 0, next: first };
        let number = match self.free {
            0 => {
                self.places.push(place);
                self.places.len() as u32
            }
            free => {
                self.free = self.place(free).next;
                *self.place(free) = place;
                free
            }
        };
        if first > 0 {
            self.place(first).before = number;
        }
        self.firsts[stage] = number;
        number
    }

    /// Whether the waker at a place does what this one does.
    pub(crate) fn will_wake(&mut self, number: u32, waker: &Waker) -> bool {
        self.place(number).waker.as_ref().map_or(false, |kept| kept.will_wake(waker))
    }

    /// Keeps another waker at a place, and gives back the one that was there.
    pub(crate) fn replace(&mut self, number: u32, waker: Waker) -> Option<Waker> {
        self.place(number).waker.replace(waker)
    }

    /// Takes a place out of a stage's row, and gives back its waker.
    pub(crate) fn remove(&mut self, stage: u16, number: u32) -> Option<Waker> {
        let WakerPlace { waker, before, next } = self.place(number);
        let (waker, before, next) = (waker.take(), *before, *next);
        match before {
            0 => self.firsts[usize::from(stage)] = next,
            before => self.place(before).next = next,
        }
        if next > 0 {
            self.place(next).before = before;
        }
        self.set_free(number);
        waker
    }

    /// Whether somebody waits for a stage.
    #[inline]
    pub(crate) fn has_waker(&self, stage: u16) -> bool {
        self.firsts.get(usize::from(stage)).map_or(false, |first| *first > 0)
    }

    /// Takes all wakers of a stage's row.
    #[inline]
    pub(crate) fn take_all(&mut self, stage: u16, to: &mut Vec<Waker>) {
        let mut number = self.firsts.get_mut(usize::from(stage)).map_or(0, take);
        while number > 0 {
            let place = self.place(number);
            to.extend(place.waker.take());
            let next = place.next;
            self.set_free(number);
            number = next;
        }
    }

    fn set_free(&mut self, number: u32) {
        self.place(number).next = std::mem::replace(&mut self.free, number);
    }
}

#[cfg(test)]
mod tests {
    use super::*;
    use std::sync::atomic::{AtomicUsize, Ordering};
    use std::sync::Arc;
    use std::task::Wake;

    struct Bell(AtomicUsize);

    impl Wake for Bell {
        fn wake(self: Arc<Bell>) {
            self.0.fetch_add(1, Ordering::SeqCst);
        }
    }

    /// Rows of two stages, to which places come and from which they go, beside lists of the same.
    #[test]
    fn rows_hold_what_was_kept() {
        let (mut wakers, stages, mut kept) = (Wakers::default(), [7, 3], [Vec::new(), Vec::new()]);
        let (mut dice, mut most) = (7_u64, 0);
        for _ in 0..3000 {
            dice = dice.wrapping_mul(6364136223846793005).wrapping_add(1442695040888963407);
            let (row, what, at) = ((dice >> 40) as usize % 2, (dice >> 50) % 8, (dice >> 33) as usize);
            match what {
                0..=3 => {
                    let bell = Arc::new(Bell(AtomicUsize::new(0)));
                    let number = wakers.keep(stages[row], Waker::from(Arc::clone(&bell)));
                    kept[row].push((number, bell));
                }
                4 if !kept[row].is_empty() => {
                    let at = at % kept[row].len();
                    let (bell, waker) = (Arc::new(Bell(AtomicUsize::new(0))), kept[row][at].0);
                    assert!(!wakers.will_wake(waker, &Waker::from(Arc::clone(&bell))));
                    let old = wakers.replace(waker, Waker::from(Arc::clone(&bell))).unwrap();
                    old.wake();
                    assert_eq!(kept[row][at].1 .0.load(Ordering::SeqCst), 1);
                    kept[row][at].1 = bell;
                }
                5 | 6 if !kept[row].is_empty() => {
                    let (number, bell) = kept[row].swap_remove(at % kept[row].len());
                    wakers.remove(stages[row], number).unwrap().wake();
                    assert_eq!(bell.0.load(Ordering::SeqCst), 1);
                }
                7 if at % 40 == 0 => {
                    let mut all = Vec::new();
                    wakers.take_all(stages[row], &mut all);
                    assert_eq!((all.len(), wakers.firsts[usize::from(stages[row])]), (kept[row].len(), 0));
                    all.into_iter().for_each(Waker::wake);
                    assert!(kept[row].drain(..).all(|(_, bell)| bell.0.load(Ordering::SeqCst) == 1));
                }
                _ => {}
            }
            most = most.max(kept[0].len() + kept[1].len());
        }
        assert_eq!(wakers.places.len(), most, "places are used again");
    }
}
