package cf.service;

import cf.internal.Form;
import cf.internal.Watch;

/**
 * What one operation has to do once the lock is free: wake the waiters of settled stages, hand ready stages to executors, and call the functions
 * that this thread has claimed. They may be of several requests, so a chain through many of them is no recursion.
 */
final class FollowUps implements Watch.Turn {
    /** Of each thread the follow-ups whose function it calls, in the one place of a row: so a thread that lives on keeps no class of this library. */
    private static final ThreadLocal<Object[]> CALLING = new ThreadLocal<>();

    /** The test that decides when functions are called; null where this thread calls them. */
    final Watch watch;
    private Stage<?> settled, lastSettled, handed, lastHanded;
    private ClaimedCall calls, lastCall, free;

    /** Links to relays of other requests, which are to be settled with this outcome. */
    private Link relayed;
    Object relayedOutcome;

    /** A request all of whose stages are settled. */
    Machine overMachine;

    /** The error that cut a request's follow-ups short, or null. */
    Throwable failure;

    /** Whose function is called; the stage is null of a flow's that nobody has asked for. */
    private Request caller;
    private int called;
    private Stage<?> calledStage;
    private Object[] place;

    /** What a function that was called for a watch has returned or thrown, until its stage is finished. */
    private Object result;
    private Throwable thrown;
    private boolean isSettled;

    FollowUps() {
        this(null);
    }

    FollowUps(Watch watch) {
        this.watch = watch;
    }

    void addSettled(Stage<?> stage) {
        if (settled == null) {
            settled = stage;
        } else {
            lastSettled.nextSettled = stage;
        }
        lastSettled = stage;
    }

    void addHanded(Stage<?> stage) {
        if (handed == null) {
            handed = stage;
        } else {
            lastHanded.nextReady = stage;
        }
        lastHanded = stage;
    }

    /** A call to fill in and hand to {@link #addCall}. */
    ClaimedCall newCall() {
        ClaimedCall call = free;
        free = null;
        return call != null ? call : new ClaimedCall();
    }

    /** Takes a call back whose function was called. */
    void recycle(ClaimedCall call) {
        call.release();
        free = call;
    }

    /** Adds a call. Of one request, the lowest stage's comes first. */
    void addCall(ClaimedCall call) {
        if (calls == null) {
            calls = lastCall = call;
        } else if (lastCall.request != call.request || lastCall.number < call.number) {
            lastCall.next = call;
            lastCall = call;
        } else {
            ClaimedCall before = null, at = calls;
            while (at.request != call.request || at.number < call.number) {
                before = at;
                at = at.next;
            }
            call.next = at;
            if (before == null) {
                calls = call;
            } else {
                before.next = call;
            }
        }
    }

    /** Sets a chain of links; those of the chain before were polled. */
    void setRelayed(Link links, Object told) {
        relayed = links;
        this.relayedOutcome = told;
    }

    Machine pollOver() {
        Machine machine = overMachine;
        overMachine = null;
        return machine;
    }

    Link pollRelayed() {
        Link link = relayed;
        if (link != null) {
            relayed = link.next;
        }
        return link;
    }

    Stage<?> pollSettled() {
        Stage<?> stage = settled;
        if (stage != null) {
            settled = stage.nextSettled;
            stage.nextSettled = null;
        }
        return stage;
    }

    Stage<?> pollHanded() {
        Stage<?> stage = handed;
        if (stage != null) {
            handed = stage.nextReady;
            stage.nextReady = null;
        }
        return stage;
    }

    ClaimedCall pollCall() {
        ClaimedCall call = calls;
        if (call != null) {
            calls = call.next;
            call.next = null;
        }
        return call;
    }

    // Calls.

    /** Calls a function of this stage. */
    Object call(Request request, int number, Stage<?> stage, Form form, Object function, Object first, Object second) {
        if (place == null || watch != null) { // Without a watch one thread does all of it.
            place = placeOfThread();
        }
        Object[] at = place;
        Object around = at[0];
        caller = request;
        called = number;
        calledStage = stage;
        at[0] = this;
        try {
            return ContextFunction.call(form, function, first, second);
        } finally {
            at[0] = around;
        }
    }

    private static Object[] placeOfThread() {
        Object[] place = CALLING.get();
        if (place == null) {
            place = new Object[1];
            CALLING.set(place);
        }
        return place;
    }

    /** Whether the stage is settled whose function this thread calls. */
    static boolean isStopping() {
        Object[] place = CALLING.get();
        FollowUps it = place == null ? null : (FollowUps) place[0];
        return it != null && (it.calledStage != null ? it.calledStage.readOutcome() != null : !it.caller.isOpen(it.called));
    }

    // For a watch.

    @Override
    public boolean tellToNext() {
        while (relayed != null || settled != null || handed != null) {
            Request.tellNext(this);
            watch.eventTold();
        }
        return calls != null;
    }

    @Override
    public Stage<?> stage() {
        return calls.stage;
    }

    @Override
    public void callFunction() {
        isSettled = calls.stage.outcome != null;
        result = thrown = null;
        try {
            result = isSettled ? null : call(calls.request, calls.number, calls.stage, calls.form, calls.function, calls.first, calls.secondArgument());
        } catch (Throwable error) {
            if (watch.endsRun(error)) {
                throw error;
            }
            thrown = error;
        }
    }

    @Override
    public Throwable exception() {
        return thrown;
    }

    @Override
    public void finishStage() {
        ClaimedCall call = pollCall();
        call.request.finish(call.number, call.form, call.secondArgument(), isSettled, result, thrown, this);
        watch.eventTold();
    }
}
