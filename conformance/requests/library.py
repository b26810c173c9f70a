"""The machine of a request, through the library for C, with the methods of `machine.Machine`.

A call that is refused has to leave what it is given as it was. So has each call what lies behind the stages that it tells.
"""
import ctypes as c
import os
import re
import sys
from pathlib import Path
from typing import Any, Dict, List, Optional, Sequence, Tuple, Union

import histories
import machine
import model
from calls import Difference, Opening

sys.path.insert(1, str(Path(__file__).resolve().parents[2] / "clients/python"))
from cf._library import (  # noqa: E402
    CAnswer,
    CArgs,
    CHandle,
    COutcome,
    CReply,
    CStage,
    CTask,
    CValue,
    GOT,
    INT,
    NIL,
    NO_FUNCTION,  # noqa: E402
    PENDING,
    STRUCTURES,
    THROWN,
    VALUE,
)

TELLING = ["apply", "gather", "compose", "link", "next", "follow", "join", "pass_to", "refuse", "cancel_all", "do_all"]
LONGEST = 64  # row of told stages
MARK = 0xA5  # what a row is filled with before a call
CAUSES = {3: "cancelled", 4: "timeout", 5: "badanswer"}
ANSWERS = ["give", "throw", "link"]
CLAIMS, FINISHES, TICKS = ["granted", "settled", "taken", "notready"], ["won", "late", "notyours"], ["fired", "past"]
STAGES = ["pending", "ready", "claimed", "linked", "settled"]
NOBODY = 2**32 - 1


class CSizes(c.Structure):
    _fields_ = [("room", c.c_uint16), ("lanes", c.c_uint8), ("own", c.c_uint8)]


class CTold(c.Structure):
    _fields_ = [("stage", c.c_uint16), ("stop", c.c_uint16), ("outcome", COutcome)]


class CTodo(c.Structure):
    _fields_ = [
        ("told", c.c_size_t),
        ("moment", c.c_uint64),
        ("news", c.c_uint32),
        ("jobs", c.c_uint16 * machine.MOST_LANES),
        ("ready", c.c_uint16 * machine.MOST_LANES),
    ]


class CRequestGathering(c.Structure):
    _fields_ = [("who", c.c_uint8), ("form", c.c_uint32), ("root", c.c_uint16)]


class CRequestComposing(c.Structure):
    _fields_ = [
        ("who", c.c_uint8),
        ("lane", c.c_uint8),
        ("form", c.c_uint32),
        ("source", c.c_uint16),
        ("function", c.c_uint16),
        ("relay", c.c_uint16),
        ("stage", c.c_uint16),
    ]


class CRequestLinking(c.Structure):
    _fields_ = [("who", c.c_uint8), ("relay", c.c_uint16), ("stage", c.c_uint16)]


class CRequestJoining(c.Structure):
    _fields_ = [("stage", c.c_uint16), ("wanted", c.c_uint16), ("cancels", c.c_uint32)]


class CDeadline(c.Structure):
    _fields_ = [("stage", c.c_uint16), ("moment", c.c_uint64), ("kind", c.c_uint32), ("code", c.c_uint32), ("value", CValue)]


class CCall(c.Structure):
    _fields_ = [
        ("call", c.c_uint32),
        ("who", c.c_uint8),
        ("lane", c.c_uint8),
        ("stage", c.c_uint16),
        ("relay", c.c_uint16),
        ("code", c.c_uint32),
        ("word", c.c_uint64),
        ("moment", c.c_uint64),
        ("kind", c.c_uint32),
        ("value", CValue),
        ("reply", CReply),
        ("task", CTask),
    ]


OWN = {
    "cf_request_sizes": CSizes,
    "cf_told": CTold,
    "cf_todo": CTodo,
    "cf_request_gathering": CRequestGathering,
    "cf_request_composing": CRequestComposing,
    "cf_request_linking": CRequestLinking,
    "cf_request_joining": CRequestJoining,
    "cf_deadline": CDeadline,
    "cf_request_call": CCall,
}
IN_ONE = ["apply", "next", "follow", "deadline", "pass_to", "refuse", "cancel_all"]  # the calls of cf_request_do by their numbers
H, P, U8, U16, U32, U64, SIZE = c.POINTER(CHandle), c.POINTER, c.c_uint8, c.c_uint16, c.c_uint32, c.c_uint64, c.c_size_t
TOLD = [P(CTold), SIZE, P(CTodo)]
CALLS: Dict[str, List[Any]] = {
    "cf_builder_new": [H, U16, U16],
    "cf_builder_stage": [H, U32, P(U16), SIZE, U32, P(U16)],
    "cf_builder_limit": [H, U16, U32, U32, U32, CValue],
    "cf_build": [H],
    "cf_ledger_of": [H, U16, P(U64), SIZE, H, P(SIZE)],
    "cf_ledger_stage": [H, U16, P(CStage)],
    "cf_ledger_stages": [H, P(U16)],
    "cf_ledger_words": [H, SIZE, P(U64), SIZE, P(SIZE)],
    "cf_request_new": [H, P(CSizes), P(U8), SIZE, H],
    "cf_request_apply": [H, U64, U8, P(CReply), *TOLD],
    "cf_request_gather": [H, P(CRequestGathering), P(U16), SIZE, *TOLD],
    "cf_request_compose": [H, P(CRequestComposing), *TOLD],
    "cf_request_link": [H, P(CRequestLinking), P(CTask), *TOLD],
    "cf_request_next": [H, U8, U8, P(CTask), *TOLD],
    "cf_request_follow": [H, U16, U16, *TOLD],
    "cf_request_join": [H, P(CRequestJoining), P(U16), SIZE, *TOLD],
    "cf_request_deadline": [H, U16, U64, U32, U32, CValue, P(CTodo)],
    "cf_request_pass": [H, U64, *TOLD],
    "cf_request_next_deadline": [H, P(CDeadline)],
    "cf_request_refuse": [H, U8, U32, *TOLD],
    "cf_request_told": [H, *TOLD],
    "cf_request_ready": [H, U8, P(U16)],
    "cf_request_cancel_all": [H, U8, *TOLD],
    "cf_request_grow": [H],
    "cf_request_restart": [H],
    "cf_request_do": [H, P(CCall), SIZE, P(SIZE), *TOLD],
}


def load() -> c.CDLL:
    loaded = c.CDLL(os.environ["CF_LIBRARY"])
    loaded.cf_layout.restype, loaded.cf_layout.argtypes = SIZE, [c.c_char_p]
    loaded.cf_code_name.restype, loaded.cf_code_name.argtypes = c.c_char_p, [U32]
    loaded.cf_free.restype, loaded.cf_free.argtypes = None, [H]
    for name, kinds in CALLS.items():
        getattr(loaded, name).restype, getattr(loaded, name).argtypes = U32, kinds
    for name, structure in {**STRUCTURES, **OWN}.items():
        if loaded.cf_layout(name.encode()) != c.sizeof(structure):
            raise ImportError(f"{name} has another size than here")
    return loaded


C = load()


def name_of(code: int) -> str:
    """The name of a code as cf.h has it, without its first part."""
    said: bytes = C.cf_code_name(code)
    return re.sub("(?<=[a-z])([A-Z])", r"_\1", said.decode()).upper()


NAMES = {code: name_of(code) for code in [*range(1, 256)] if C.cf_code_name(code)}
NOTHING = next(code for code, name in NAMES.items() if name == "NOTHING")


def check(code: int) -> None:
    if code:
        raise machine.Refused(NAMES[code])


def value_in(value: Optional[int]) -> CValue:
    return CValue(NIL, 0) if value is None else CValue(INT, value)


def value_of(value: CValue) -> Optional[int]:
    return value.number if value.kind else None


def answer_in(answer: machine.Answer) -> CAnswer:
    kind, content = answer
    made = CAnswer(kind=ANSWERS.index(kind))
    if kind == "give":
        made.value = value_in(content)
    elif kind == "throw":
        made.code = content
    else:
        made.stage = content
    return made


def outcome_of(outcome: COutcome) -> Optional[machine.Outcome]:
    if outcome.kind == PENDING:
        return None
    if outcome.kind == VALUE:
        return ("value", value_of(outcome.value))
    cause = ("thrown", outcome.code) if outcome.kind == THROWN else model.caused(CAUSES[outcome.kind], outcome.code)
    return ("fault", cause, bool(outcome.wrapped))


def args_of(args: CArgs) -> Tuple[Any, ...]:
    if args.kind == GOT:
        return ("got", outcome_of(args.outcome))
    return (["none", "one", "two"][args.kind], value_of(args.first), value_of(args.second))[: args.kind + 1]


def reply_of(kind: str, reply: CReply) -> machine.Reply:
    """The reply to a call of this kind, as model.py has it."""
    if kind == "claim":
        return (kind, (CLAIMS[reply.answer], args_of(reply.args)) if reply.answer == 0 else (CLAIMS[reply.answer],))
    if kind == "finish":
        return (kind, FINISHES[reply.answer])
    if kind == "tick":
        return (kind, (TICKS[reply.answer], reply.number) if reply.answer == 0 else (TICKS[reply.answer],))
    return (kind, reply.number if reply.answer == 0 else None) if kind == "attach" else ("flag", bool(reply.answer))


def stage_of(stage: CStage) -> machine.Stage:
    kind = STAGES[stage.kind]
    more = {"linked": (stage.target,), "settled": (outcome_of(stage.outcome),)}.get(kind, ())
    return (kind, *more), None if stage.who == NOBODY else stage.who


def kept_in(ledger: CHandle) -> List[machine.Stage]:
    """What each stage of a ledger or a request is, and whose claim of it is open."""
    count, stage, kept = U16(), CStage(), []
    check(C.cf_ledger_stages(ledger, count))
    for number in range(count.value):
        check(C.cf_ledger_stage(ledger, number, stage))
        kept.append(stage_of(stage))
    return kept


class Library:
    """A request of the library, and its plan."""

    def __init__(self, opening: Opening) -> None:
        self.opening, self.plan, self.request = opening, CHandle(), CHandle()
        self.row, self.todo = (CTold * (LONGEST + 1))(), CTodo(moment=machine.NEVER)
        self.marked = bytes([MARK]) * c.sizeof(self.row)
        self.lanes = list(range(opening.of_lanes))
        try:
            self.build()
            self.open()
        except machine.Refused:
            self.close()
            raise

    def build(self) -> None:
        check(C.cf_builder_new(self.plan, 0, 0))
        for form, sources, function in self.opening.plan.stages:
            of = (U16 * len(sources))(*sources)
            number = NO_FUNCTION if function is None else function
            check(C.cf_builder_stage(self.plan, histories.FORMS.index(form), of, len(of), number, U16()))
        for stage, at, outcome in self.opening.plan.limits:
            check(C.cf_builder_limit(self.plan, stage, at, *limit_in(outcome)))
        check(C.cf_build(self.plan))

    def open(self) -> None:
        lanes = (U8 * len(self.opening.lanes))(*self.opening.lanes)
        sizes = CSizes(self.opening.room, self.opening.of_lanes, self.opening.own)
        check(C.cf_request_new(self.plan, sizes, lanes, len(lanes), self.request))

    def close(self) -> None:
        C.cf_free(self.request)
        C.cf_free(self.plan)

    # What it tells.

    def mark(self, room: int) -> Tuple[Any, int, CTodo]:
        """A row for so many told stages, filled with marks, and the todo. A row for none may be null."""
        c.memset(self.row, MARK, c.sizeof(self.row))
        self.todo.told = self.todo.news = MARK
        self.before = bytes(self.todo)
        return self.row if room else None, room, self.todo

    def told(self, room: int) -> machine.Told:
        """What a call has told by the row. Behind that there are marks."""
        total = self.todo.told
        count = min(total, room)
        end = count * c.sizeof(CTold)
        if bytes(self.row)[end:] != self.marked[end:]:
            raise Difference("the row is written behind the stages that are told")
        return machine.Told(total, [(self.row[k].stage, self.row[k].stop, outcome_of(self.row[k].outcome)) for k in range(count)])

    def checked(self, code: int, *given: Tuple[Any, bytes]) -> None:
        """Raises why a call is refused, and sees that it has left the row, the todo and what else it was given as it was."""
        if code:
            left = bytes(self.row) == self.marked and bytes(self.todo) == self.before
            if not left or any(bytes(it) != before for it, before in given):
                raise Difference(f"a call that is refused for {NAMES[code]} has written something")
            check(code)

    def tell(self, room: int) -> machine.Told:
        self.checked(C.cf_request_told(self.request, *self.mark(room)))
        return self.told(room)

    def left(self) -> int:
        other = CTodo()
        check(C.cf_request_told(self.request, None, 0, other))
        told: int = other.told
        return told

    def next_todo(self, jobs: Sequence[int]) -> machine.Todo:
        """What the host has to do. The library only reads its jobs, and writes no lane that isn't there."""
        todo, count = self.todo, self.opening.of_lanes
        if list(todo.jobs) != fill(jobs) or list(todo.ready)[count:] != fill([])[count:]:
            raise Difference("a todo is written where it has to be left")
        return machine.Todo(todo.moment, list(todo.ready)[:count], todo.news)

    def words(self) -> List[int]:
        count = SIZE()
        check(C.cf_ledger_words(self.request, 0, None, 0, count))
        words = (U64 * count.value)()
        check(C.cf_ledger_words(self.request, 0, words, len(words), count))
        return list(words)

    def kept(self) -> List[machine.Stage]:
        return kept_in(self.request)

    def kept_by(self, words: Sequence[int]) -> List[machine.Stage]:
        """What these words leave of a new ledger's stages."""
        ledger, place = CHandle(), SIZE()
        room = sum(event[0] == "attach" for event in map(histories.event_of, words))
        check(C.cf_ledger_of(self.plan, room, (U64 * len(words))(*words), len(words), ledger, place))
        kept = kept_in(ledger)
        C.cf_free(ledger)
        return kept

    def ready_of_lanes(self) -> List[int]:
        return [self.ready(lane) for lane in self.lanes]

    def next_deadline(self) -> Optional[machine.Deadline]:
        told = CDeadline()
        code = C.cf_request_next_deadline(self.request, told)
        if code == NOTHING:
            return None
        check(code)
        outcome = ("value", value_of(told.value)) if told.kind else ("fault", model.caused("timeout", told.code), False)
        return machine.Deadline(told.stage, told.moment, outcome)

    def ready(self, lane: int) -> int:
        count = U16()
        check(C.cf_request_ready(self.request, lane, count))
        return count.value

    # Its calls.

    def call(self, name: str, given: Tuple[Any, ...], room: int, jobs: Sequence[int]) -> Tuple[Any, machine.Told, List[machine.Todo]]:
        """What a call answers, and what is told by it, or else by the call for that, and what the host has to do."""
        self.todo.jobs[:], self.todo.ready[len(jobs) :] = fill(jobs), fill([])[len(jobs) :]
        if name in TELLING:
            answer, told = getattr(self, name)(room, *given)
            return answer, told, [self.next_todo(jobs)]
        answer = getattr(self, name)(*given)
        todos = [self.next_todo(jobs)] if name == "deadline" else []
        if todos and self.todo.told != self.left():
            raise Difference("a deadline doesn't say how many stages are told still")
        return answer, self.tell(room), [*todos, self.next_todo(jobs)]

    def apply(self, room: int, event: Union[int, machine.Event], lane: int) -> Tuple[Any, machine.Told]:
        word, reply = event if isinstance(event, int) else histories.word_of(event), CReply()
        before = bytes(reply)
        self.checked(C.cf_request_apply(self.request, word, lane, reply, *self.mark(room)), (reply, before))
        return reply_of(histories.event_of(word)[0], reply), self.told(room)

    def gather(self, room: int, who: int, form: str, sources: Sequence[int]) -> Tuple[Any, machine.Told]:
        of = (U16 * len(sources))(*sources) if sources else None
        step = CRequestGathering(who=who, form=histories.FORMS.index(form))
        before = bytes(step)
        self.checked(C.cf_request_gather(self.request, step, of, len(sources), *self.mark(room)), (step, before))
        return step.root, self.told(room)

    def compose(self, room: int, who: int, form: str, source: int, function: int, lane: int) -> Tuple[Any, machine.Told]:
        step = CRequestComposing(who=who, lane=lane, form=histories.FORMS.index(form), source=source, function=function)
        before = bytes(step)
        self.checked(C.cf_request_compose(self.request, step, *self.mark(room)), (step, before))
        return machine.Composed(step.relay, step.stage), self.told(room)

    def link(self, room: int, who: int, relay: int, held: Optional[int], stage: int) -> Tuple[Any, machine.Told]:
        step, task = CRequestLinking(who=who, relay=relay, stage=stage), CTask()
        if held is not None:
            task = CTask(held=1, stage=held, answer=answer_in(("throw", 7)))
        before = (step, bytes(step)), (task, bytes(task))
        self.checked(C.cf_request_link(self.request, step, task, *self.mark(room)), *before)
        if task.held or task.stage != held:
            raise Difference("a task doesn't say that its compose is finished")
        return FINISHES[task.finished], self.told(room)

    def next(self, room: int, who: int, lane: int, held: Optional[Tuple[int, machine.Answer]]) -> Tuple[Any, machine.Told]:
        task = CTask()
        if held is not None:
            task = CTask(held=1, stage=held[0], answer=answer_in(held[1]))
        before = (task, bytes(task))
        code = C.cf_request_next(self.request, who, lane, task, *self.mark(room))
        self.checked(0 if code == NOTHING else code, before)
        if bool(task.held) != (code == 0) or (held is None and task.finished):
            raise Difference("a task doesn't say what its step has done")
        taken = machine.Taken(task.stage, task.function, args_of(task.args)) if code == 0 else None
        finished = None if held is None else FINISHES[task.finished]
        return machine.Next(finished, taken), self.told(room)

    def do_all(self, room: int, made: Sequence[Tuple[str, Tuple[Any, ...]]]) -> Tuple[Any, machine.Told]:
        calls, done = (CCall * len(made))(*[call_in(name, given) for name, given in made]), SIZE()
        before = [bytes(call) for call in calls]
        code = C.cf_request_do(self.request, calls if made else None, len(made), done, *self.mark(room))
        if any(bytes(call) != was for call, was in list(zip(calls, before))[done.value :]) or (done.value < len(made)) != bool(code):
            raise Difference("rows that aren't done are written, or it isn't said which is refused")
        answers = [answer_in_row(name, given, call) for (name, given), call in list(zip(made, calls))[: done.value]]
        return (answers, NAMES[code] if code else None), self.told(room)

    def follow(self, room: int, relay: int, stage: int) -> Tuple[Any, machine.Told]:
        self.checked(C.cf_request_follow(self.request, relay, stage, *self.mark(room)))
        return None, self.told(room)

    def join(self, room: int, stage: int, wanted: int, sources: Sequence[int], cancels: bool) -> Tuple[Any, machine.Told]:
        of, step = (U16 * len(sources))(*sources) if sources else None, CRequestJoining(stage, wanted, cancels)
        self.checked(C.cf_request_join(self.request, step, of, len(sources), *self.mark(room)))
        return None, self.told(room)

    def pass_to(self, room: int, moment: int) -> Tuple[Any, machine.Told]:
        self.checked(C.cf_request_pass(self.request, moment, *self.mark(room)))
        return None, self.told(room)

    def refuse(self, room: int, lane: int, code: int) -> Tuple[Any, machine.Told]:
        self.checked(C.cf_request_refuse(self.request, lane, code, *self.mark(room)))
        return None, self.told(room)

    def deadline(self, deadline: machine.Deadline) -> None:
        *_, todo = self.mark(0)
        self.checked(C.cf_request_deadline(self.request, deadline.stage, deadline.moment, *limit_in(deadline.outcome), todo))

    def cancel_all(self, room: int, who: int) -> Tuple[Any, machine.Told]:
        self.checked(C.cf_request_cancel_all(self.request, who, *self.mark(room)))
        return None, self.told(room)

    def grow(self) -> None:
        check(C.cf_request_grow(self.request))

    def restart(self) -> None:
        check(C.cf_request_restart(self.request))

    def rest(self) -> None:
        """Does nothing."""


def call_in(name: str, given: Tuple[Any, ...]) -> CCall:
    """A call as a row of cf_request_do. What it isn't given is filled with marks."""
    row = CCall.from_buffer_copy(bytes([MARK]) * c.sizeof(CCall))
    row.call = IN_ONE.index(name)
    if name == "apply":
        row.word, row.lane = given[0] if isinstance(given[0], int) else histories.word_of(given[0]), given[1]
    elif name == "next":
        row.who, row.lane, held = given
        row.task = CTask() if held is None else CTask(held=1, stage=held[0], answer=answer_in(held[1]))
    elif name == "follow":
        row.relay, row.stage = given
    elif name == "deadline":
        row.stage, row.moment = given[0].stage, given[0].moment
        row.kind, row.code, row.value = limit_in(given[0].outcome)
    elif name == "pass_to":
        row.moment = given[0]
    elif name == "refuse":
        row.lane, row.code = given
    else:
        row.who = given[0]
    return row


def answer_in_row(name: str, given: Tuple[Any, ...], row: CCall) -> Any:
    """What a call answers that was done as a row."""
    if name == "apply":
        return reply_of(histories.event_of(row.word)[0], row.reply)
    if name != "next":
        return None
    taken = machine.Taken(row.task.stage, row.task.function, args_of(row.task.args)) if row.task.held else None
    return machine.Next(None if given[2] is None else FINISHES[row.task.finished], taken)


def fill(numbers: Sequence[int]) -> List[int]:
    """A number for each lane that there may be: where none is given, marks."""
    return [*numbers, *[MARK] * (machine.MOST_LANES - len(numbers))]


def is_pointer(kind: Any) -> bool:
    return issubclass(kind, c._Pointer)


def check_handles() -> int:
    """Each call of a request refuses a handle of another kind, an empty one, and a null pointer. It answers how many it refused."""
    plan, count = CHandle(), 0
    check(C.cf_builder_new(plan, 0, 0))
    check(C.cf_build(plan))
    for name, kinds in [(name, kinds) for name, kinds in CALLS.items() if name.startswith("cf_request_") and name != "cf_request_new"]:
        given = [kind._type_() if is_pointer(kind) else kind() for kind in kinds]
        wanted: List[Tuple[int, Any, str]] = [(0, plan, "WRONG_KIND"), (0, CHandle(), "EMPTY")]
        # a row of nothing, whose length stands behind it, may be null
        wanted += [(place, None, "NULL") for place, kind in enumerate(kinds) if is_pointer(kind) and kinds[place + 1 : place + 2] != [SIZE]]
        for place, pointer, why in wanted:
            told = NAMES[getattr(C, name)(*given[:place], pointer, *given[place + 1 :])]
            if told != why:
                raise Difference(f"{name} without what it needs at {place}: it answers {told}, and not {why}")
        count += len(wanted)
    C.cf_free(plan)
    return count


def limit_in(outcome: machine.Outcome) -> Tuple[int, int, CValue]:
    """What a limit or a deadline does, and by which code."""
    return (1, 0, value_in(outcome[1])) if outcome[0] == "value" else (0, (*outcome[1][1:], 0)[0], value_in(None))
