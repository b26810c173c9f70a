"""A chain of 512 stages settled over the library for C, from Python: bench/library/run runs it.

    steps.py LIBRARY [MODULE]

LIBRARY is the path of libcf.so, and MODULE that of step_module.c as it was built, if it was. It prints a line for each way, in the form of
steps.c; all ways take their rounds in turn:

    step ctypes, three calls    cf_lowest_ready, cf_claim and cf_finish_with for each stage
    step ctypes, by ..          one cf_next, cf_sweep_next, cf_round with 16 tasks, cf_ledger_step or cf_desk_next for each stage
    step module, by ..          one cf_next or cf_sweep_next by a call of the module
    step module, by work        the module calls the function of each stage, written in Python

A graph and a ledger are started again; a desk is opened anew, which isn't counted.
"""
import ctypes as c
import sys
import time
from importlib.util import module_from_spec, spec_from_file_location

STAGES, ROUNDS, TASKS, LOG = 512, 1500, 16, 3 * 512
SOURCE, APPLY, NO_FUNCTION = 0, 3, 0xFFFFFFFF
# At which word of 32 bits the numbers stand in a cf_task, a cf_reply, a cf_answer and a cf_event.
TASK, TASK_STAGE, TASK_FIRST, TASK_KIND, TASK_VALUE = 18, 1, 4, 14, 15
REPLY_FIRST, ANSWER_KIND, ANSWER_VALUE, EVENT_VALUE = 4, 2, 3, 2


def words(n):
    """So many words of 32 bits, and what points to them in a call."""
    memory = (c.c_int32 * n)()
    return memoryview(memory).cast("B").cast("i"), c.byref(memory)


class ByCtypes:
    """The chain by ctypes, whose calls take what stands ready as it is: no object is made for a call."""

    def __init__(self, path):
        self.calls = c.CDLL(path)
        self.plan, self.graph, self.ledger, self.caller = ((c.c_uint64 * 2)() for _ in range(4))
        self.at = c.byref(self.graph)
        number, plan = c.c_uint16(), c.byref(self.plan)
        must(self.calls.cf_builder_new(plan, STAGES, STAGES))
        for stage in range(STAGES):
            of, function = c.byref(c.c_uint16(max(stage - 1, 0))), c.c_uint32(0 if stage else NO_FUNCTION)
            must(self.calls.cf_builder_stage(plan, APPLY if stage else SOURCE, of, c.c_size_t(min(stage, 1)), function, c.byref(number)))
        must(self.calls.cf_build(plan))
        must(self.calls.cf_graph_new(plan, 0, self.at))
        self.one = c.c_uint64(1 << 32 | 1)  # a cf_value has 8 bytes, which C hands over as one number of 64 bits
        self.stage = c.c_uint16()
        must(self.calls.cf_ledger_new(plan, 0, c.byref(self.ledger)))
        event, event_at = words(15)
        event[EVENT_VALUE], event[EVENT_VALUE + 1] = 1, 1
        self.first = c.c_uint64()
        must(self.calls.cf_word_of_event(event_at, c.byref(self.first)))

    def start(self):
        must(self.calls.cf_restart(self.at))
        must(self.calls.cf_complete(self.at, 0, self.one, words(12)[1]))

    def by_three(self):
        self.start()
        calls, graph, stage = self.calls, self.at, self.stage
        lowest_ready, claim, finish = calls.cf_lowest_ready, calls.cf_claim, calls.cf_finish_with
        told = c.byref(stage)
        (reply, reply_at), (answer, answer_at) = words(12), words(5)
        answer[ANSWER_KIND] = 1
        while lowest_ready(graph, told) == 0:
            number = stage.value
            must(claim(graph, 0, number, reply_at))
            answer[ANSWER_VALUE] = reply[REPLY_FIRST] + 1
            must(finish(graph, 0, number, answer_at, reply_at))
        return answer[ANSWER_VALUE]

    def by_next(self):
        self.start()
        graph, following = self.at, self.calls.cf_next
        task, task_at = words(TASK)
        task[TASK_KIND] = 1
        while following(graph, 0, task_at) == 0:
            task[TASK_VALUE] = task[TASK_FIRST] + 1
        return task[TASK_VALUE]

    def by_sweep(self):
        self.start()
        graph, following = self.at, self.calls.cf_sweep_next
        must(self.calls.cf_sweep_begin(graph))
        task, task_at = words(TASK)
        task[TASK_KIND] = 1
        while following(graph, task_at) == 0:
            task[TASK_VALUE] = task[TASK_FIRST] + 1
        must(self.calls.cf_sweep_end(graph))
        return task[TASK_VALUE]

    def by_round(self):
        self.start()
        graph, following, count = self.at, self.calls.cf_round, c.c_size_t(TASKS)
        tasks, tasks_at = words(TASKS * TASK)
        last = 0
        while following(graph, 0, tasks_at, count) == 0:
            for of in range(0, TASKS * TASK, TASK):
                if not tasks[of]:
                    break
                tasks[of + TASK_KIND], tasks[of + TASK_VALUE] = 1, tasks[of + TASK_FIRST] + 1
                last = tasks[of + TASK_VALUE]
        return last

    def by_ledger_step(self):
        ledger, following = c.byref(self.ledger), self.calls.cf_ledger_step
        must(self.calls.cf_ledger_restart(ledger))
        (task, task_at), (step, step_at), news_at, room, count = words(TASK), words(8), words(36)[1], c.c_size_t(4), c.byref(c.c_size_t())
        must(self.calls.cf_ledger_apply(ledger, self.first, words(12)[1], news_at, room, count))
        task[TASK_KIND] = 1
        while following(ledger, step_at, task_at, news_at, room, count) == 0:
            step[0] = (task[TASK_STAGE] & 0xFFFF) << 16  # (`from`, behind `who`, which is 0)
            task[TASK_VALUE] = task[TASK_FIRST] + 1
        return task[TASK_VALUE]

    def open(self):
        must(self.calls.cf_desk_open(c.byref(self.plan), c.byref(self.caller), c.c_size_t(1), LOG, LOG))

    def by_desk_next(self):
        caller, following = c.byref(self.caller), self.calls.cf_desk_next
        task, task_at = words(TASK)
        must(self.calls.cf_desk_complete(caller, 0, self.one, words(12)[1]))
        task[TASK_KIND] = 1
        while following(caller, task_at) == 0:
            task[TASK_VALUE] = task[TASK_FIRST] + 1
        return task[TASK_VALUE]

    def free(self):
        self.calls.cf_free(c.byref(self.caller))


class ByModule:
    """The chain by the module."""

    def __init__(self, path):
        spec = spec_from_file_location("step_module", path)
        module = module_from_spec(spec)
        spec.loader.exec_module(module)
        self.chain = module.Chain(STAGES)

    def by_next(self):
        self.chain.start(1)
        following = self.chain.next
        number = following(0)
        while number is not None:
            number = following(number + 1)
        return self.chain.outcome(STAGES - 1)

    def by_sweep(self):
        self.chain.start(1)
        self.chain.begin()
        following = self.chain.sweep
        number = following(0)
        while number is not None:
            number = following(number + 1)
        self.chain.end()
        return self.chain.outcome(STAGES - 1)

    def by_work(self):
        self.chain.start(1)
        if self.chain.work(one_more) != STAGES - 1:
            raise SystemExit("steps.py: a function wasn't called")
        return self.chain.outcome(STAGES - 1)


def one_more(number):
    return number + 1


def must(code):
    if code:
        raise SystemExit(f"steps.py: a call answered {code}")


def took(way):
    since = time.perf_counter_ns()
    last = way()
    nanos = time.perf_counter_ns() - since
    if last != STAGES:
        raise SystemExit("steps.py: the last stage holds something else")
    return nanos


def main(library, *module):
    chain = ByCtypes(library)
    ways = {
        "ctypes, three calls": chain.by_three,
        "ctypes, by cf_next": chain.by_next,
        "ctypes, by cf_sweep_next": chain.by_sweep,
        "ctypes, by cf_round": chain.by_round,
        "ctypes, by cf_ledger_step": chain.by_ledger_step,
        "ctypes, by cf_desk_next": chain.by_desk_next,
    }
    for path in module:
        built = ByModule(path)
        ways.update({"module, by cf_next": built.by_next, "module, by cf_sweep_next": built.by_sweep, "module, by work": built.by_work})
    found = {name: [] for name in ways}
    for _ in range(ROUNDS):
        for name, way in ways.items():
            chain.open()
            found[name].append(took(way))
            chain.free()
    for name, nanos in found.items():
        nanos.sort()
        best, median = (it * 1000 // STAGES for it in (nanos[0], nanos[ROUNDS // 2]))
        print(f"step {name}: best {best} ps, median {median} ps, {ROUNDS} rounds")


if __name__ == "__main__":
    main(*sys.argv[1:])
