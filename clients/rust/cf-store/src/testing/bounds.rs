//! What may become of a call of a store: it is answered; or no answer comes, and it stands, never comes there, or is on its way. That is what an
//! engine may do (docs/ENGINES.md), and no more.

/// How often at most something may go wrong in one order: 0 where nothing is said.
///
/// ```
/// # use cf_store::testing::Bounds;
/// let one_of_each = Bounds::new().killed(1).unanswered(1);
/// ```
#[derive(Clone, Copy, Debug, Default, PartialEq, Eq)]
pub struct Bounds {
    pub(super) lost: u32,
    pub(super) unanswered: u32,
    pub(super) late: u32,
    pub(super) silent: u32,
    pub(super) killed: u32,
    pub(super) slow: u32,
}

impl Bounds {
    /// Nothing goes wrong.
    pub fn new() -> Bounds {
        Bounds::default()
    }

    /// A call of the store never comes there. It is asked again.
    #[must_use]
    pub fn lost(self, lost: u32) -> Bounds {
        Bounds { lost, ..self }
    }

    /// A call is done, and its answer is lost. It is asked again.
    #[must_use]
    pub fn unanswered(self, unanswered: u32) -> Bounds {
        Bounds { unanswered, ..self }
    }

    /// A put is on its way for a while, and comes later, if its place is still free then. Meanwhile it is asked again, so it may come twice.
    #[must_use]
    pub fn late(self, late: u32) -> Bounds {
        Bounds { late, ..self }
    }

    /// The store doesn't answer for a minute: the caller gets [`StoreError::Unknown`](crate::StoreError::Unknown). What it asked for is done or not,
    /// or with `late` on its way.
    #[must_use]
    pub fn silent(self, silent: u32) -> Bounds {
        Bounds { silent, ..self }
    }

    /// A process is killed, between any two moves of its threads. What it had claimed stays claimed until another takes it for gone.
    #[must_use]
    pub fn killed(self, killed: u32) -> Bounds {
        Bounds { killed, ..self }
    }

    /// A process that is there is taken for gone, while its threads are at work.
    #[must_use]
    pub fn slow(self, slow: u32) -> Bounds {
        Bounds { slow, ..self }
    }

    /// Whether a call may be answered so once more.
    pub(super) fn allows(&self, answer: CallFate) -> bool {
        match answer {
            CallFate::Told => true,
            CallFate::Lost => self.lost > 0,
            CallFate::Unanswered => self.unanswered > 0,
            CallFate::Late => self.late > 0,
            CallFate::Silent | CallFate::SilentStands => self.silent > 0,
            CallFate::SilentLate => self.silent > 0 && self.late > 0,
        }
    }

    /// What is left behind an answer.
    pub(super) fn count_down(&mut self, answer: CallFate) {
        match answer {
            CallFate::Told => {}
            CallFate::Lost => self.lost -= 1,
            CallFate::Unanswered => self.unanswered -= 1,
            CallFate::Late => self.late -= 1,
            CallFate::Silent | CallFate::SilentStands => self.silent -= 1,
            CallFate::SilentLate => {
                self.silent -= 1;
                self.late -= 1;
            }
        }
    }
}

/// What becomes of a call.
#[derive(Clone, Copy, Debug, PartialEq, Eq)]
pub(super) enum CallFate {
    Told,
    Lost,
    Unanswered,
    /// It may come to stand at any moment from now on.
    Late,
    /// The store is silent until the caller gives up.
    Silent,
    SilentStands,
    SilentLate,
}

impl CallFate {
    /// Whether it stands at once.
    pub(super) fn is_done(self) -> bool {
        matches!(self, CallFate::Told | CallFate::Unanswered | CallFate::SilentStands)
    }

    pub(super) fn is_late(self) -> bool {
        matches!(self, CallFate::Late | CallFate::SilentLate)
    }

    pub(super) fn is_silent(self) -> bool {
        matches!(self, CallFate::Silent | CallFate::SilentStands | CallFate::SilentLate)
    }

    pub(super) fn text(self) -> &'static str {
        match self {
            CallFate::Told => "",
            CallFate::Lost => "; it never comes to the store",
            CallFate::Unanswered => "; it stands, and the answer is lost",
            CallFate::Late => "; it is on its way, and no answer comes",
            CallFate::Silent => "; the store is silent for a minute, and it never comes there",
            CallFate::SilentStands => "; it stands, and the store is silent for a minute",
            CallFate::SilentLate => "; it is on its way, and the store is silent for a minute",
        }
    }
}

/// Of functions, and of what a test goes on with.
pub(super) const OF_CALLS: &[CallFate] = &[CallFate::Told];
pub(super) const OF_READS: &[CallFate] = &[CallFate::Told, CallFate::Silent];
pub(super) const OF_WRITES: &[CallFate] = &[CallFate::Told, CallFate::Lost, CallFate::Unanswered, CallFate::Silent, CallFate::SilentStands];
pub(super) const OF_PUTS: &[CallFate] =
    &[CallFate::Told, CallFate::Lost, CallFate::Unanswered, CallFate::Late, CallFate::Silent, CallFate::SilentStands, CallFate::SilentLate];

#[cfg(test)]
mod tests {
    use super::*;

    #[test]
    fn what_has_gone_wrong_goes_wrong_once_less() {
        let all = Bounds { lost: 2, unanswered: 2, late: 2, silent: 2, killed: 2, slow: 2 };
        let left = [
            (CallFate::Told, all),
            (CallFate::Lost, all.lost(1)),
            (CallFate::Unanswered, all.unanswered(1)),
            (CallFate::Late, all.late(1)),
            (CallFate::Silent, all.silent(1)),
            (CallFate::SilentStands, all.silent(1)),
            (CallFate::SilentLate, all.silent(1).late(1)),
        ];
        for (answer, wanted) in left {
            let mut bounds = all;
            bounds.count_down(answer);
            assert_eq!(bounds, wanted, "{answer:?}");
        }
    }
}
