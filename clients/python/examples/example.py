"""A fan-out, a limit that gives a fallback, and a fault that is handled: by one thread, and by four that share a
desk; and a ledger."""
import cf


def throws(_value):
    raise cf.Thrown(404)


FUNCTIONS = [lambda x: 2 * x, lambda x, y: x + y, throws, lambda outcome: outcome.fault.code]


def fan_out():
    """The plan, its source, the total of what comes of it, a stage with a limit, one that throws, and one that
    handles that."""
    plan = cf.Plan()
    source = plan.stage(cf.Form.SOURCE)
    doubled = [plan.stage(cf.Form.APPLY, source, function=0) for _ in range(20)]
    total = doubled[0]
    for stage in doubled[1:]:
        total = plan.stage(cf.Form.COMBINE, total, stage, function=1)
    late = plan.stage(cf.Form.SOURCE)
    plan.complete_on_timeout(late, 50, 7)
    thrown = plan.stage(cf.Form.APPLY, source, function=2)
    handled = plan.stage(cf.Form.EXCEPTIONALLY, thrown, function=3)
    return plan, source, total, late, thrown, handled


def one_thread() -> None:
    plan, source, total, late, thrown, handled = fan_out()
    with cf.Graph(plan, room=1) as graph:
        print("complete", graph.complete(source, 3))
        print("again", graph.complete(source, 4))
        print("worked", graph.work(FUNCTIONS))
        print("total", graph.future(total).result())
        print("limits fired", graph.tick(60))
        print("late", graph.future(late).result())
        try:
            graph.future(thrown).result()
        except cf.Thrown as fault:
            print("thrown", fault.code)
        print("handled", graph.future(handled).result())
        attached = graph.attach(cf.Form.APPLY, total, function=0)
        print("attached", attached, "worked", graph.work(FUNCTIONS), "gives", graph.future(attached).result())
        print("no room", graph.attach(cf.Form.APPLY, total, function=0))
        try:
            graph.complete(999, 1)
        except cf.Refused as refused:
            print("refused", refused)


def four_threads() -> None:
    plan, source, total, late, _, handled = fan_out()
    with plan.open_desk(callers=4, log=200, calls=200, room=1) as desk:
        first = desk.callers[0]
        workers = cf.Workers(desk.callers[1:], FUNCTIONS)
        with workers, first:
            print("complete", first.complete(source, 3))
            print("limits fired", first.tick(60))
            attached = first.attach(cf.Form.COMBINE, total, late, function=1)
            print("attached", attached)
        print("worked", workers.finish())
        print("total", first.future(total).result(), "handled", first.future(handled).result())
        print("attached gives", first.join(attached).get())
        told = judge(plan, desk.close())
        print("caller 0 did", [type(record.event).__name__ for record in told if isinstance(record, cf.CallRecord)])


def judge(plan, closed):
    """Replays the history of a closed desk by one thread, and compares what its callers were told; gives the records
    of the first."""
    words, records = closed.words(), [closed.records(caller) for caller in range(closed.callers)]
    print("first event", cf.event_of(words[0]), "with the word", words[0])
    told = {record.place: record for own in records for record in own if isinstance(record, cf.CallRecord)}
    with cf.Graph(plan, room=1) as again, closed.graph() as graph:
        same = [(word, again.apply(word)) == (told[k].word, told[k].reply) for k, word in enumerate(words, start=1)]
        print("each reply comes again", all(same))
        print("each outcome too", all(again.outcome(stage) == graph.outcome(stage) for stage in range(graph.stages())))
    return records[0]


def flight_recorder() -> None:
    """Each event tells which stages it changed, and the words of all make the same ledger again."""
    plan, source, total, *_ = fan_out()
    with cf.Ledger(plan) as ledger:
        told = ledger.apply_event(cf.events.Complete(0, source, 3))
        print("changed", [(stage.number, stage.kind.name) for stage in told.news if stage.number <= 2])
        ready = ledger.ready()
        print("claimed", ledger.apply_event(cf.events.Claim(1, ready)).reply.status.name, "by", ledger.stage(ready).who)
        with cf.Ledger.from_words(plan, ledger.words()) as again:
            print("made again", [again.stage(stage) for stage in range(total)] == [ledger.stage(stage) for stage in range(total)])
        try:
            cf.Ledger.from_words(plan, ledger.words() + [0])
        except cf.Misfit as misfit:
            print("word", misfit.place, "refused:", misfit)


def scripts() -> None:
    script = '{"cf":1,"stages":[{"form":"source"},{"form":"apply","of":[0],"fn":{"add":5}}],' '"steps":[["complete",0,3],["work"]]}'
    print(cf.run_script(script), end="")
    try:
        cf.run_script("[]")
    except cf.BadScript as fault:
        print(fault)
    print(cf.outcome_text(cf.Outcome(None, cf.Thrown(404))))


if __name__ == "__main__":
    one_thread()
    four_threads()
    flight_recorder()
    scripts()
