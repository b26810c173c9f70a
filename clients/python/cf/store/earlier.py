"""What a further try is called with: what the call was given that it does again.

The row says it: its words are done again on the proved ledger, up to the claim of the stage that is tried again.
"""
from typing import Any, List, Mapping, Optional, Sequence, Tuple

from ..ledger import Ledger
from ..plan import Plan
from ..service.words import CLAIM
from ..values import Args, ClaimReply, Form, Outcome, Value

GETS_OUTCOMES = (Form.HANDLE, Form.WHEN_COMPLETE, Form.EXCEPTIONALLY, Form.EXCEPTIONALLY_COMPOSE)
EITHERS = (Form.APPLY_EITHER, Form.ACCEPT_EITHER, Form.RUN_EITHER)
CALLED_WITHOUT = (Form.THEN_RUN, Form.RUN_BOTH, Form.RUN_EITHER)


def first_try(definitions: Sequence[Mapping[str, Any]], stage: int) -> Optional[int]:
    """The stage whose function a further try calls, or None where the stage isn't a further try."""
    first: Optional[int] = None
    while "again" in definitions[stage]:
        stage = first = int(definitions[stage]["again"])
    return first


def called_definition(definitions: Sequence[Mapping[str, Any]], stage: int) -> Mapping[str, Any]:
    """The definition of the stage whose function a stage calls: itself, or the first try."""
    first = first_try(definitions, stage)
    return definitions[stage if first is None else first]


def arguments_of_call(plan: Plan, room: int, words: Sequence[int], stage: int, form: Form, of: Tuple[int, ...]) -> Args:
    """What the function of a stage was called with, by the words of the row, in places of payloads. One that was settled by
    hand without a call gets what its sources have now."""
    ledger = Ledger(plan, room)
    for word in words:
        reply = ledger.apply(word).reply
        if word >> 56 == CLAIM and word >> 36 & 0xFFF == stage and isinstance(reply, ClaimReply) and reply.args is not None:
            return reply.args
    return _arguments_by_sources(form, [ledger.stage(source).outcome for source in of])


def _arguments_by_sources(form: Form, told: List[Optional[Outcome]]) -> Args:
    if form in GETS_OUTCOMES:
        return (told[0],) if told[0] is not None else (Outcome(None, None),)
    if form in CALLED_WITHOUT:
        return ()
    if form in EITHERS:
        told = [next((it for it in told if it is not None and it.fault is None), told[0])]
    return tuple(_value_of(it) for it in told)


def _value_of(told: Optional[Outcome]) -> Value:
    return None if told is None or told.fault is not None else told.value
