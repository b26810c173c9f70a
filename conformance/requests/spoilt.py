"""Plain machines, each with one mistake. The random hosts have to tell each of them from the library's machine."""
from typing import Any, List, Optional, Sequence, Tuple, Union

import model
from machine import LEAST_GROWTH, NEVER, Answer, Composed, Deadline, Event, Join, Machine, Next, Outcome, Reply, Taken, Told, Todo


class TheHighestIsTaken(Machine):
    def ready_in(self, lane: int) -> List[int]:
        return super().ready_in(lane)[::-1]


class AnyLaneIsTaken(Machine):
    def take(self, who: int, lane: int) -> Optional[Taken]:
        return super().take(who, lane) or super().take(who, 0)


class TheLaneIsLost(Machine):
    def apply(self, event: Union[int, Event], lane: int) -> Reply:
        reply = super().apply(event, lane)
        if reply[0] == "attach":
            self.lanes[-1] = 0
        return reply


class TheLastIsntGathered(Machine):
    def gather(self, who: int, form: str, sources: Sequence[int]) -> int:
        return super().gather(who, form, sources[:2] if len(sources) == 3 else sources)


class OthersAreGatheredFirst(Machine):
    def gather(self, who: int, form: str, sources: Sequence[int]) -> int:
        return super().gather(who, form, sources[::-1])


class TheRootIsTheFirst(Machine):
    def gather(self, who: int, form: str, sources: Sequence[int]) -> int:
        return super().gather(who, form, sources) - max(len(sources) - 2, 0)


class OneStageFindsNoRoom(Machine):
    def gather(self, who: int, form: str, sources: Sequence[int]) -> int:
        self.check_caller(who)
        return super().gather(who, form, sources[: self.state.room + 1])


class NoRelayIsAttached(Machine):
    def compose(self, who: int, form: str, source: int, function: int, lane: int) -> Composed:
        composed = super().compose(who, form, source, function, lane)
        return composed._replace(relay=composed.stage)


class AComposeFindsNoRoom(Machine):
    def compose(self, who: int, form: str, source: int, function: int, lane: int) -> Composed:
        if self.state.room > 1:
            return super().compose(who, form, source, function, lane)
        self.make_room(1)
        try:
            return super().compose(who, form, source, function, lane)
        finally:
            self.make_room(-1)


class AComposeLosesItsLane(Machine):
    def compose(self, who: int, form: str, source: int, function: int, lane: int) -> Composed:
        composed = super().compose(who, form, source, function, lane)
        self.lanes[-1] = 0
        return composed


class TheComposeIsFollowed(Machine):
    def link(self, who: int, relay: int, held: Optional[int], stage: int) -> str:
        is_open = stage < self.stages() and not self.is_settled(stage)
        return super().link(who, relay, held, held if is_open and held is not None else stage)


class NobodyFollows(Machine):
    def link(self, who: int, relay: int, held: Optional[int], stage: int) -> str:
        follows = list(self.follows)
        finished = super().link(who, relay, held, stage)
        self.follows = follows
        return finished


class AnyRelayWillDo(Machine):
    def link(self, who: int, relay: int, held: Optional[int], stage: int) -> str:
        return super().link(who, 0 if held is not None and relay >= held else relay, held, stage)


class ARefusedLinkFollows(Machine):
    def link(self, who: int, relay: int, held: Optional[int], stage: int) -> str:
        if max(relay, stage) < self.stages():
            self.follow(relay, stage)
        return super().link(who, relay, held, stage)


class ALinkFinishesForAnother(Machine):
    def link(self, who: int, relay: int, held: Optional[int], stage: int) -> str:
        claimant = self.state.claims[held] if held is not None and held < self.stages() and who < 64 else None
        return super().link(who if claimant is None else claimant, relay, held, stage)


class RelaysRestBehindAnEvent(Machine):
    def apply(self, event: Union[int, Event], lane: int) -> Reply:
        follows, self.follows = self.follows, []
        try:
            return super().apply(event, lane)
        finally:
            self.follows = follows


class RelaysRestBeforeAClaim(Machine):
    def next(self, who: int, lane: int, held: Optional[Tuple[int, Answer]]) -> Next:
        follows, self.follows = self.follows, []
        try:
            return super().next(who, lane, held)
        finally:
            self.follows = follows


class RelaysComeAfterDeadlines(Machine):
    def pass_to(self, moment: int) -> None:
        follows, self.follows = self.follows, []
        try:
            super().pass_to(moment)
        finally:
            self.follows = follows
        self.settle_relays(self.own)


class TheLastRelayComesFirst(Machine):
    def follow(self, relay: int, stage: int) -> None:
        super().follow(relay, stage)
        self.follows.insert(0, self.follows.pop())


class RelaysRestWhenTheyAreSet(Machine):
    def follow(self, relay: int, stage: int) -> None:
        self.check_stages(relay, stage)
        self.follows.append(Join(relay, 1, [stage]))


class ARelayFollowsOneStage(Machine):
    def follow(self, relay: int, stage: int) -> None:
        self.check_stages(relay, stage)
        self.follows = [it for it in self.follows if it.stage != relay]
        super().follow(relay, stage)


class AQuorumTellsAValue(Machine):
    def due_relay(self) -> Optional[Tuple[int, Outcome]]:
        due = super().due_relay()
        join = next((it for it in self.follows if due and it.stage == due[0] and self.decided(it)), None)
        return (due[0], self.decided(join) or due[1]) if due and join else due


class ATwinCountsOnce(Machine):
    def join(self, stage: int, wanted: int, sources: Sequence[int], cancels: bool = False) -> None:
        once = sorted(set(sources))
        super().join(stage, wanted, once if wanted <= len(once) else sources, cancels)


class OneFailureEndsAJoin(Machine):
    def decided(self, join: Join) -> Optional[Outcome]:
        failed = [it for it in self.settled if it in join.sources and (self.outcome(it) or ("",))[0] == "fault"]
        return self.outcome(failed[0]) if failed else super().decided(join)


class TheLastToSettleDecides(Machine):
    def decided(self, join: Join) -> Optional[Outcome]:
        ends = [self.outcome(it) for it in self.settled if it in join.sources]
        decided = super().decided(join)
        return [it for it in ends if it and decided and it[0] == decided[0]][-1] if decided else None


class TheLowestDecides(Machine):
    def decided(self, join: Join) -> Optional[Outcome]:
        settled, self.settled = self.settled, sorted(self.settled)
        try:
            return super().decided(join)
        finally:
            self.settled = settled


class OneMoreThanAllIsWanted(Machine):
    def join(self, stage: int, wanted: int, sources: Sequence[int], cancels: bool = False) -> None:
        super().join(stage, min(wanted, max(1, len(sources))), sources, cancels)


class AScopeIsFollowed(Machine):
    def join(self, stage: int, wanted: int, sources: Sequence[int], cancels: bool = False) -> None:
        super().join(stage, wanted, sources)


class AScopeCancelsForGoodAlone(Machine):
    def decided(self, join: Join) -> Optional[Outcome]:
        outcome = super().decided(join)
        return None if join.cancels and outcome and outcome[0] == "fault" else outcome


class ACancellationIsAFailure(Machine):
    def settle(self, who: int, stage: int, outcome: Outcome) -> None:
        is_cancelled = outcome[0] == "fault" and outcome[1] == ("cancelled",)
        super().settle(who, stage, ("fault", ("thrown", 0), False) if is_cancelled else outcome)


def without_code(outcome: Outcome) -> Outcome:
    """The outcome with the code 0, if it is a time-out or a bad answer."""
    return outcome if outcome[0] == "value" or outcome[1][0] == "thrown" else ("fault", outcome[1][:1], outcome[2])


class ARelayLosesTheCode(Machine):
    def due_relay(self) -> Optional[Tuple[int, Outcome]]:
        due = super().due_relay()
        return None if due is None else (due[0], without_code(due[1]))


class ADeadlineFiresWithoutItsCode(Machine):
    def settle(self, who: int, stage: int, outcome: Outcome) -> None:
        is_due = any(deadline[:3:2] == (stage, outcome) for deadline in self.deadlines)
        super().settle(who, stage, without_code(outcome) if is_due else outcome)


class AnotherSettles(Machine):
    def settle(self, who: int, stage: int, outcome: Outcome) -> None:
        super().settle(1, stage, outcome)


class AMomentLate(Machine):
    def pass_to(self, moment: int) -> None:
        deadlines = self.deadlines
        self.deadlines = [it for it in deadlines if it.moment != moment]
        try:
            super().pass_to(moment)
        finally:
            self.deadlines = deadlines


class TimeGoesBack(Machine):
    def pass_to(self, moment: int) -> None:
        self.moment = min(self.moment, moment)
        super().pass_to(moment)


class TheLastOfEqualMoments(Machine):
    def first_deadline(self) -> Optional[Deadline]:
        self.deadlines.reverse()
        try:
            return super().first_deadline()
        finally:
            self.deadlines.reverse()


class APastDeadlineKeepsItsMoment(Machine):
    def next_deadline(self) -> Optional[Deadline]:
        return self.first_deadline()


class AStageHasOneDeadline(Machine):
    def deadline(self, deadline: Deadline) -> None:
        self.check_stages(deadline.stage)
        self.deadlines = [it for it in self.deadlines if it.stage != deadline.stage]
        super().deadline(deadline)


class ToldTwice(Machine):
    def tell(self, room: int) -> Told:
        told = super().tell(room)
        self.told = [stage for stage, *_ in told.taken[-1:]] + self.told
        return told


class ToldRising(Machine):
    def tell(self, room: int) -> Told:
        self.told.sort()
        return super().tell(room)


class WhoeverRanIsStopped(Machine):
    def stop(self, stage: int) -> int:
        ran: List[int] = [event[1] for event in self.events if event[0] == "claim" and event[2] == stage]
        return ran[-1] + 1 if ran else 0


class TheStopIsTheCaller(Machine):
    def stop(self, stage: int) -> int:
        return max(0, super().stop(stage) - 1)


class TheOwnCallerStopsNobody(Machine):
    def stop(self, stage: int) -> int:
        who = super().stop(stage)
        return 0 if self.outcome(stage) == model.CANCELLED else who


class JobsArentCounted(Machine):
    def look(self, jobs: Sequence[int]) -> Todo:
        return super().look([0] * self.count)


class JobsOfAllLanesCount(Machine):
    def look(self, jobs: Sequence[int]) -> Todo:
        return super().look([sum(jobs)] * self.count)


class OneJobIsEnough(Machine):
    def look(self, jobs: Sequence[int]) -> Todo:
        return super().look([count and 65535 for count in jobs])


class TheFirstLaneIsNews(Machine):
    def look(self, jobs: Sequence[int]) -> Todo:
        todo = super().look(jobs)
        self.todo = todo._replace(news=todo.news & ~1 | bool(todo.ready[0]))
        return self.todo


class EachMomentIsNews(Machine):
    def look(self, jobs: Sequence[int]) -> Todo:
        todo = super().look(jobs)
        self.todo = todo._replace(news=todo.news | 2)
        return self.todo


class NeverIsNoNews(Machine):
    def look(self, jobs: Sequence[int]) -> Todo:
        todo = super().look(jobs)
        self.todo = todo._replace(news=todo.news & ~2) if todo.moment == NEVER else todo
        return self.todo


class AStepThatRestsLooks(Machine):
    def look_idle(self) -> Todo:
        return self.look([0] * self.count)


class NewsOutlivesAStepThatRests(Machine):
    def look_idle(self) -> Todo:
        return self.todo


class AnotherFinishes(Machine):
    def next(self, who: int, lane: int, held: Optional[Tuple[int, Answer]]) -> Next:
        self.check_caller(who)
        if held is not None and held[0] < self.stages():
            who = self.state.claims[held[0]] if self.state.claims[held[0]] is not None else who
        return super().next(who, lane, held)


class AnotherCodeIsThrown(Machine):
    def refuse(self, lane: int, code: int) -> None:
        super().refuse(lane, code // 2)


class WhatARefusalMakesReadyStays(Machine):
    def refuse(self, lane: int, code: int) -> None:
        self.check_lane(lane)
        self.settle_relays(self.own)
        for stage in self.ready_in(lane):
            if not self.is_settled(stage):
                self.settle(self.own, stage, ("fault", ("thrown", code), False))
                self.settle_relays(self.own)


class RelaysRestBehindARefusal(Machine):
    def refuse(self, lane: int, code: int) -> None:
        follows, self.follows = self.follows, []
        try:
            super().refuse(lane, code)
        finally:
            self.follows = follows
        self.settle_relays(self.own)


class TheOwnCallerCancels(Machine):
    def cancel_all(self, who: int) -> None:
        super().cancel_all(self.own if who < 64 else who)


class TheHighestIsCancelledFirst(Machine):
    def cancel_all(self, who: int) -> None:
        self.check_caller(who)
        for stage in reversed(range(self.stages())):
            if not self.is_settled(stage):
                self.settle(who, stage, model.CANCELLED)
                self.settle_relays(who)


class DeadlinesOutliveAStart(Machine):
    def restart(self) -> None:
        kept = getattr(self, "deadlines", [])
        super().restart()
        self.deadlines = [it for it in kept if it.stage < self.stages()]


class RelaysOutliveAStart(Machine):
    def restart(self) -> None:
        kept = getattr(self, "follows", [])
        super().restart()
        self.follows = [it for it in kept if max(it.stage, *it.sources) < self.stages()]


class TheMomentOutlivesAStart(Machine):
    def restart(self) -> None:
        kept = getattr(self, "moment", 0)
        super().restart()
        self.moment = kept


class LanesOutliveAStart(Machine):
    def restart(self) -> None:
        kept = getattr(self, "lanes", self.planned)
        super().restart()
        self.lanes = kept


class ARefusedCallIsPassedOver(Machine):
    def do_all(self, made: Sequence[Tuple[str, Tuple[Any, ...]]]) -> Tuple[List[Any], Optional[str]]:
        answers, why = super().do_all(made)
        if why is not None:
            super().do_all(made[len(answers) + 1 :])
        return answers, why


class OneCallIsLeftOut(Machine):
    def do_all(self, made: Sequence[Tuple[str, Tuple[Any, ...]]]) -> Tuple[List[Any], Optional[str]]:
        return super().do_all(made[:4])


class OneTooManyComesIn(Machine):
    def make_room(self, more: int) -> None:
        super().make_room(more + 1)


class TheLeastComesIn(Machine):
    def make_room(self, more: int) -> None:
        super().make_room(min(more, LEAST_GROWTH))


class TheLastStaysOut(Machine):
    def room_left(self) -> int:
        left = super().room_left()
        return 0 if left == 1 else left


class GrowthForgetsWhatIsTold(Machine):
    def grow(self) -> None:
        super().grow()
        self.told = []


class GrowthLosesLanes(Machine):
    def grow(self) -> None:
        super().grow()
        self.lanes = [*self.planned, *[0] * (self.stages() - len(self.planned))]


class GrowthForgetsDeadlines(Machine):
    def grow(self) -> None:
        super().grow()
        self.deadlines = []


class RoomDoesntOutliveAStart(Machine):
    def restart(self) -> None:
        self.room = self.opened = getattr(self, "opened", self.room)
        super().restart()


MISTAKES = [it for it in list(globals().values()) if isinstance(it, type) and issubclass(it, Machine) and it is not Machine]
