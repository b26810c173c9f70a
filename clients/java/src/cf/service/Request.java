package cf.service;

import cf.internal.Ends;
import cf.internal.Form;
import cf.internal.Full;
import cf.internal.Layout;
import cf.internal.Native;
import cf.internal.Watch;
import cf.internal.Words;
import cf.service.Faults.Fault;
import cf.service.Waits.Alarm;
import java.time.Duration;
import java.util.ArrayList;
import java.util.Arrays;
import java.util.BitSet;
import java.util.Collection;
import java.util.Collections;
import java.util.List;
import java.util.Objects;
import java.util.concurrent.CancellationException;
import java.util.concurrent.CompletableFuture;
import java.util.concurrent.CompletionStage;
import java.util.concurrent.Executor;
import java.util.concurrent.TimeUnit;
import java.util.concurrent.atomic.AtomicInteger;
import java.util.function.Supplier;
import java.util.stream.Collectors;

/**
 * Stages that belong together, of which one history is kept. Any thread may use it; calls on one request wait for one another at its lock, under
 * which no function, callback or executor is called.
 *
 * <p>It is in the memory of its process. It keeps its values, exceptions and history as long as it, or one of its stages, can be reached, so use one
 * for a thing that happens, and not for a cache. {@link #close} says what becomes of its memory outside the heap.
 *
 * <p>A request has at most 4,096 stages. All methods that attach one more throw {@link RequestFullException}, and change nothing; if it
 * {@link #continueInNext() continues in a next one}, the stage goes there instead. Where the system refuses memory, an {@link OutOfMemoryError} is
 * thrown.
 *
 * <p>{@code Thread.stop}, which Java has up to version 19, may leave the request unusable that it strikes; others go on.
 */
public final class Request extends StageFactory implements AutoCloseable {
    /*
     * Overview.
     *
     * A request is one machine of the proved library (docs/REQUEST.md) and the Java objects that it knows by numbers. Who may
     * settle a stage, which stage is ready and who has claimed it, what follows from a settled stage, which relay ends by it,
     * which deadline comes next: the machine alone decides that. The code here hands over what happens, and does to Java
     * objects what the machine tells.
     *
     * What is kept where.
     * - Machine: the graph, the claims, the words, relays within the request and deadlines, in a core outside the heap
     *   (native/cf_java.c). One crossing does the words that wait and one change. It brings back the reply, the settled stages,
     *   the stages that this thread has claimed, with their arguments, and the stages that are ready for executors.
     * - Request: the open stages (of a flow, those that were asked for), their names, the values, the exceptions (Faults) and
     *   the threads. A value is the index in `values`, an exception the index in `faults`, and a thread the number of a caller;
     *   the words hold these numbers.
     * - Stage: its number, form and executor, which never change. `outcome` is null at first, and then NIL, a value or a Fault.
     *   `function` is there until it is claimed, or not needed. The part that Stage inherits of CompletableFuture decides
     *   nothing. It is settled last, which wakes the waiters.
     * - FollowUps: what one operation of one thread has yet to do once the lock is free. Each operation has its own. A
     *   ClaimedCall in it is a function that this thread has claimed.
     * - Link: ties a relay to a future that is no stage of its request.
     *
     * Locks. The monitor of `machine` is the request's lock. It guards the machine and its core, all fields of this class that
     * aren't final but `isContinued`, and of each stage `function`, `dependents`, `extras` and the chains of links there.
     * `outcome`, `extras` and `next` are volatile, so they can be read without the lock. No thread holds the locks of two
     * requests. Under the lock no function, callback or executor is called, and nobody is woken. A flight recording takes
     * words there. No `toString` of a user's is called there either: an exception that wraps another one asks for its text,
     * so it is made once the lock is free (Fault.error). Below the lock there is one more, that of the list of Freed, around
     * a few assignments.
     *
     * An operation (complete, fail, cancel, attach, claimAndCall, settleRelay, passTime) goes like this:
     * 1. checkDepth throws where the stack is nearly full. Nothing was done then.
     * 2. Under the lock, the machine is called once. `publish` reads what it brings: it writes `outcome` of each settled stage,
     *    and notes in FollowUps these stages, the claimed functions, and the stages for executors. So a thread that sees one
     *    outcome also sees all outcomes of earlier words.
     * 3. The lock is free. `tell` takes one thing after another out of FollowUps, in this order: relays of other requests,
     *    which are settled under their request's lock; settled stages, whose waiters are woken; stages for executors; claimed
     *    functions, of one request the lowest first. Each of these may add to FollowUps. The loop is the only way from a stage
     *    to the next one, so a chain of any length, also through many requests, takes no more stack.
     * 4. An Error of an executor, or of an action that Java's classes have attached, doesn't end the loop. The first one is
     *    thrown at the end.
     *
     * A function from ready to finished. A stage has an executor or it hasn't: these are the two lanes of the machine.
     * - Without one, the thread that made it ready calls its function, as in CompletableFuture. Each call of the machine that
     *   can make such stages ready claims them all for its thread. So between calls none is ready, and no thread calls what
     *   another one has made ready. `callFunction` calls the function without the lock, and finishes the stage: one crossing
     *   finishes it and claims what that made ready. If somebody settles a claimed stage before its turn, its function isn't
     *   called, and the finish comes too late.
     * - With one, the executor is given a StageTask. Its thread claims the stage in `claimAndCall`, and goes on as above. If an
     *   executor throws, its stage is claimed and finished with what it threw (`failRefused`).
     * A claim may be refused, since somebody has settled the stage meanwhile: then nothing is called. A finish may come too
     * late: then the machine says so, and the value or exception is kept for the history alone.
     *
     * Attaching. The word of a stage that can't have anything to do yet, since a source isn't settled, waits in the core's
     * memory for the next call that can change something (Machine.attachLater); one crossing does them all. Any other stage
     * is attached at once, and what it takes of its sources it takes in that word. Stages that wait for three or more are attached
     * by one call, and only the last of them has a Stage, unless there is a watch or a recording. A composing stage has a source right
     * below it, its relay. Where its function gives a lower stage of this request, the finish links to that. Where it gives
     * anything else, the finish links to the relay: the machine has it follow a higher stage of this request, and a Link
     * settles it by what is elsewhere.
     *
     * Relays. A source of this request stands for a future that isn't a stage of it. Link.hangOn hangs it on any
     * CompletionStage, `addOutsideLink` on a stage of another request. The thread that takes the relay out of its link
     * (Link.takeRelay) settles it. Once the stage is settled for which the relay was made, the link is removed, so a future
     * that lives long keeps nothing of requests that are over.
     *
     * Deadlines. Stage.orTimeout and completeOnTimeout set a deadline of the machine (`setLimit`). With each reply the machine
     * tells the moment of the next one, at which the request has one Waits.Alarm; Clock has one thread that knows all alarms.
     * Then `passTime` lets time pass up to it, in a thread of its own, as an operation like any other; the caller CLOCK settles
     * stages there, and functions that were attached without an executor are called there. The next deadline gets its alarm
     * before that, so it comes after the one before it, and isn't delayed by these functions. Once no open stage has a
     * deadline, the clock forgets the request.
     *
     * Scopes. A scope is a source, and a stage is put into it by a join that cancels, in the same hold of the lock as its attach, before
     * anybody can claim it (`putIn`). So the machine alone ends what is in a scope. Stage.Extras has the scope, which stages that are attached
     * behind inherit.
     *
     * Interrupts. Where the service interrupts, a function that begins is a Running of its stage (`enterFunction`). Whoever settles the stage
     * otherwise stops it once the lock is free.
     *
     * Room. A request has at most 4,096 stages, and of a flow's, two edges are set aside for each stage that is attached.
     * `hasPlace` is asked under the lock, before anything is attached. Where there is none, the request throws, or hands the
     * call on to `next`, if it is continued there. The machine makes more room itself.
     *
     * Memory. Where the system refuses memory, an OutOfMemoryError is thrown, and the words that were done by then stand
     * (Machine.throwRefusal). `close` keeps the words in the heap and gives the core to the next request; a later word makes
     * another core do all words again. Relays, joins and deadlines aren't in the words: each stage keeps what tells
     * the machine of its own (`keepUnwritten`), and `restoreUnwritten` does that again. Most likely a request whose stages are all settled isn't needed any
     * more, so the next such request of its thread has its core given back, too (`publish` notes it, Machine.giveBackLater).
     * Where it is needed nevertheless, it keeps the core that it has then. Cores of requests that nobody can reach are freed by
     * the threads that open the next ones (Freed).
     *
     * Contexts and ends. Where the service has contexts, a function that is attached is a ContextFunction, which has what was
     * captured before anything is done; one of a flow becomes one as it is claimed (`takeClaimed`). `tellEndOnceSettled` hands
     * the request to the service's hook once, by `Ends`, as soon as the stages that it has then are settled.
     *
     * Watches. A service may have a Watch, as cf.testing makes it, which takes the place of executors and the clock. It is
     * called for each word under the lock. `tell` hands it the FollowUps, and it works these off as a Turn, one function at a time.
     * Tasks, limits and waits are the watch's, and histories have its time and its callers.
     *
     * Which methods call user code, all without a lock: those that `tell` calls, which are `wakeWaiters` (what Java's own methods
     * have attached; Describe, for a recording), `handToExecutor` (Executor.execute) and `callFunction` (a stage's function);
     * handStarted and `execute`, which call an executor; `history`, which calls Describe; Link.hangOn, which calls whenComplete
     * of somebody's CompletionStage; and those that call Contexts: the constructors, `attach`, `attachStarted` and `oneCall`.
     */

    /** The callers of a history (docs/FORMATS.md, "Callers"): the machine itself is the clock. Nobody here is caller 0. */
    static final int CLOCK = Layout.CLOCK, RELAY = 2, FIRST_THREAD = 3, OTHER_THREADS = 63;

    /** How many stages a request that continues in a next one gathers at once. */
    private static final int MOST_GATHERED = 1024;
    private static final Stage<?>[] NO_STAGES = {};
    private static final Link[] NO_LINKS = {};
    private static final Object[] NO_VALUES = {};
    private static final long[] NO_MOMENTS = {};

    final Service service;
    /** The test that runs it, or null. */
    final Watch watch;
    private final String name;
    /** Whether it has one stage, and gives its core back once that is settled. */
    private final boolean isSingle;
    /** The flow of its first stages, or null. */
    private final Flow flow;
    final Machine machine;
    /** Makes texts of values and exceptions. */
    final Describe describe;
    /** The contexts of the place where it was opened, or null. */
    private final Executor context;
    /** The scope of all stages, which ends at the request's limit, or null. */
    private Scope whole;

    /** The open stages; of a flow, those that were asked for. */
    private Stage<?>[] stages;
    private String[] names;
    private Object[] values;
    private int valueCount;
    private Faults faults;
    private Sources sources;
    private long thread = Long.MIN_VALUE;
    private long[] threads;
    private String[] threadNames = new String[1];
    private int threadCount;
    /** How many relays, joins and deadlines of open stages the machine has: these aren't in the words. */
    private int unwritten;
    /** The stages that end by others, or null where there is none. */
    private BitSet joins;
    /** Null where there was never a limit. */
    private Alarm alarm;
    /** Whether a core that it has again is given back once all relays and deadlines have ended. */
    private boolean isClosed;
    /** Whether a stage of its flow was asked for. */
    private boolean isAsked;
    /** How many words a recording has. */
    private int recordedWords;
    private boolean isContinued;
    /** When events were, in a watch's time. */
    private long[] moments = NO_MOMENTS;
    private int stampedEvents;
    /** Whether the service's hook has got its history. */
    private boolean isEndTold;
    private volatile Request next;

    Request(Service service, String name, Flow flow, int room, Describe describe) {
        this(service, name, flow, room, describe, service.captureContext());
    }

    private Request(Service service, String name, Flow flow, int room, Describe describe, Executor within) {
        this.service = service;
        watch = service.watch;
        this.name = name;
        this.flow = flow;
        isSingle = false;
        this.describe = describe;
        this.context = within;
        machine = new Machine(flow == null ? null : flow.plan(), room);
        values = flow != null ? new Object[flow.stageCount()] : NO_VALUES;
        stages = flow == null && room > 0 ? new Stage<?>[room] : NO_STAGES;
        if (watch != null) {
            watch.requestOpened(this);
        }
        noteOpened();
    }

    /** A request of one stage. */
    private Request(Service service) {
        this.service = service;
        watch = null;
        name = "one call";
        flow = null;
        isSingle = true;
        describe = service.describe();
        context = service.captureContext();
        values = new Object[1];
        stages = new Stage<?>[1];
        machine = new Machine(Words.attach(callerNumber(), Form.SUPPLY, 0, 0, 0, 0));
        noteOpened();
    }

    private void noteOpened() {
        if (service.meter() != null) {
            service.meter().noteOpened(this);
        }
    }

    /** A request of one stage that gives its core back once that is settled. The executor's thread opens its machine. */
    static <U> Stage<U> oneCall(Service service, Supplier<U> supplier) {
        Objects.requireNonNull(supplier);
        if (service.watch != null) {
            return new Request(service, "one call", null, 1, service.describe()).supplyAsync(supplier);
        }
        Request request = new Request(service);
        Object function = request.context == null ? supplier : new ContextFunction(request.context, supplier);
        Stage<U> stage = new Stage<>(request, 0, Form.SUPPLY, function, service.executor());
        request.stages[0] = stage; // Nobody else has it yet.
        request.handStarted(stage);
        return stage;
    }

    @Override
    public Request request() {
        return this;
    }

    @Override
    Scope within() {
        return whole;
    }

    /** From now on all stages are of a scope that ends then. */
    Request limited(Duration limit) {
        whole = new Scope(this, null).named("limit");
        whole.setLimit(limit);
        return this;
    }

    /** The task that an executor gets. */
    private static final class StageTask implements Runnable, CompletableFuture.AsynchronousCompletionTask, Watch.ReadyStage {
        private final Stage<?> stage;

        StageTask(Stage<?> stage) {
            this.stage = stage;
        }

        @Override
        public void run() {
            stage.request.claimAndCall(stage);
        }

        @Override
        public Stage<?> stage() {
            return stage;
        }

        @Override
        public Watch.Turn claim() {
            return stage.request.claimForWatch(stage);
        }
    }

    // Stages.

    /**
     * An executor that hands each task to the service's executor after a time: for a later start, or a pause before a further try.
     *
     * <pre>{@code stage.exceptionallyCompose(error -> request.supplyAsync(ask, request.delayedExecutor(1, TimeUnit.SECONDS)))}</pre>
     */
    public Executor delayedExecutor(long delay, TimeUnit unit) {
        return delayedExecutor(delay, unit, service.executor());
    }

    /** An executor that hands each task to this one after a time. */
    public Executor delayedExecutor(long delay, TimeUnit unit, Executor executor) {
        return watch == null ? Service.delayedExecutor(delay, unit, executor)
                : act -> watch.runLater(unit.toNanos(delay), () -> execute(executor, act));
    }

    /** A stage that ends by others. */
    static final class Joined {
        final Stage<?> stage;
        private final Stage<?>[] of;

        Joined(Stage<?> stage, Stage<?>[] of) {
            this.stage = stage;
            this.of = of;
        }

        /** The values that are there. */
        @SuppressWarnings("unchecked")
        <U> List<U> values() {
            List<U> values = new ArrayList<>();
            for (Stage<?> each : of) {
                Object told = each.readOutcome();
                if (told != null && !(told instanceof Fault)) {
                    values.add(told == Stage.NIL ? null : (U) told);
                }
            }
            return values;
        }

        /** Gives the exception of the one that failed last, if they have failed, those of the others. */
        void addFailuresTo(Throwable last) {
            if (last == null) {
                return;
            }
            List<Throwable> others = new ArrayList<>();
            for (Stage<?> each : of) {
                Object told = each.readOutcome();
                if (told instanceof Fault) {
                    others.add(((Fault) told).rawError());
                }
            }
            addSuppressed(last, others);
        }
    }

    /** Gives an exception those others that it hasn't. */
    static void addSuppressed(Throwable last, Collection<Throwable> others) {
        for (Throwable error : others) {
            if (error != last && !Arrays.asList(last.getSuppressed()).contains(error)) {
                last.addSuppressed(error);
            }
        }
    }

    @SuppressWarnings("unchecked")
    <U> Stage<U> attachAdopted(Scope scope, CompletionStage<U> of) {
        if (!isForeign(of)) {
            return (Stage<U>) of;
        }
        Link[] link = new Link[1];
        Stage<U> relay = attachRelay(scope, of, link, 0, false);
        link[0].removeOnceSettled(relay);
        return relay;
    }


    /** A relay, and its link in this place of a row; see {@link Link#wraps}. */
    private <U> Stage<U> attachRelay(Scope scope, CompletionStage<U> of, Link[] links, int at, boolean wraps) {
        Stage<U> relay = attach(scope, Form.SOURCE, null, null, null, null, false);
        relay.request.setName(relay.number, "relay");
        links[at] = new Link(relay, null, wraps);
        if (watch != null) {
            watch.relayLinked(relay, of);
        }
        FollowUps followUps = new FollowUps(watch);
        Throwable thrown = hangLink(links[at], of, followUps);
        tell(followUps);
        if (thrown != null) {
            Request.<RuntimeException>rethrow(thrown);
        }
        return relay;
    }

    /**
     * The stage of a step of the flow that the request was started with.
     *
     * @throws IllegalArgumentException the step is of another flow
     */
    @SuppressWarnings("unchecked")
    public <U> Stage<U> stage(Flow.Step<U> step) {
        if (step.flow() != flow) {
            throw new IllegalArgumentException("the step is of another flow");
        }
        Stage<U> stage;
        boolean isShown, rests;
        synchronized (lock()) {
            stage = (Stage<U>) stageAt(step.number());
            isShown = stage.outcome == null && showIfSettled(stage);
            isAsked = true;
            rests = watch == null && mayGiveBackCore();
        }
        if (isShown) {
            stage.settleInherited(); // Nobody else has it.
        }
        if (rests) {
            machine.giveBackLater();
        }
        return stage;
    }

    /** Gives a stage of a flow its outcome if it was settled before it is asked for, and says whether it was. The lock is held. */
    private boolean showIfSettled(Stage<?> stage) {
        boolean isSettled = machine.isSettled(stage.number);
        if (isSettled) {
            stages[stage.number] = null;
            stage.setOutcome(outcomeOf(0));
        }
        return isSettled;
    }

    /**
     * Lets stages for which there is no room go to a further request, {@link #next}, which has a history of its own, instead of throwing
     * {@link RequestFullException}. This request keeps the further ones reachable, and not the other way round: whoever keeps nothing but
     * {@link #next} lets the first one go, with its values and its history, once no pending stage waits for one of its stages.
     *
     * @return this request
     */
    public Request continueInNext() {
        isContinued = true;
        return this;
    }

    /** The request to which stages went for which there was no room here, or null. Close it, too. */
    public Request next() {
        return next;
    }

    /** The name by which it was opened. */
    public String name() {
        return name;
    }

    /**
     * All that happened until now. Each text of it takes some microseconds, by the number of events. In it the 62nd thread of a request and all
     * later ones are one caller.
     */
    public History history() {
        if (watch != null) {
            watch.historyRead(this);
        }
        History history;
        synchronized (lock()) {
            history = takeHistory();
        }
        return history.describeBy(describe);
    }

    /** The same for a meter, which asks for no text of a value. */
    History glance() {
        synchronized (lock()) {
            return takeHistory();
        }
    }

    /** The same, not described yet. The lock is held. */
    private History takeHistory() {
        int count = machine.stages();
        String[] names = this.names == null ? new String[count] : Arrays.copyOf(this.names, count);
        for (int k = 0; flow != null && k < flow.stageCount(); k++) {
            names[k] = names[k] == null ? flow.name(k) : names[k];
        }
        return new History(name, flow, machine, names, Arrays.copyOf(values, valueCount), faults == null ? new Throwable[0] : faults.errors(),
                joins == null ? new BitSet(0) : (BitSet) joins.clone(), Arrays.copyOf(threadNames, threadCount), watch == null ? null : Arrays.copyOf(moments, machine.events()));
    }

    /**
     * Gives the memory outside the heap to the next request. It ends no stage and no function: stages can still be settled and attached, and limits
     * come. If the request is needed again, all its events are done once more, and then it keeps its memory. Its history can be told as before. The
     * hook of its {@link Service#onEnd service} is told of it once all stages are settled that it has now. A further request ({@link #next}) is
     * closed by a call of its own.
     *
     * <p>A request that nobody closes gives this memory away by itself once all its stages are settled, and those of another request, too, that the
     * same thread opened. Close a request that doesn't: one that was needed again, one with a stage that nobody settles, one of a flow that nobody
     * asks for a stage, one with more than 512 stages that were attached. Otherwise its memory waits for the garbage collector, which nobody asks to
     * run. If over 8,192 requests have such memory, each one whose memory wasn't given back also makes 8 KB of garbage, so that the collector comes
     * as often as if it saw the memory outside.
     */
    @Override
    public void close() {
        if (whole != null) {
            endIfIdle(whole);
        }
        if (service.tellsEnds()) {
            tellEndOnceSettled();
        }
        synchronized (lock()) {
            isClosed = unwritten > 0;
            machine.giveBackCore(isClosed ? this::restoreUnwritten : null);
        }
    }

    /** Ends a scope whose stages are all settled, so that its limit needn't come. */
    private void endIfIdle(Scope scope) {
        FollowUps followUps = new FollowUps(watch);
        synchronized (lock()) {
            if (scope.stage.outcome == null && openStages(scope).isEmpty()) {
                int who = callerNumber();
                applyWord(Words.complete(who, scope.stage.number, Words.NIL), who, followUps);
            }
        }
        tell(followUps);
    }

    /** The stage of a request of one stage is settled: that is its end, unless there are more stages by now. */
    private void tellEndIfAlone() {
        boolean ends;
        synchronized (lock()) {
            ends = machine.stages() == 1;
        }
        if (ends) {
            tellEnd();
        }
    }

    private void tellEndOnceSettled() {
        List<Stage<?>> open = new ArrayList<>();
        synchronized (lock()) {
            machine.flush();
            for (int k = 0; k < machine.stages() && !isEndTold; k++) {
                // A relay that the stage above it doesn't need stays open for good, and a scope until somebody ends it.
                if (isOpen(k) && stageAt(k).function != Stage.ASIDE) {
                    open.add(stageAt(k));
                }
            }
        }
        AtomicInteger left = new AtomicInteger(1 + open.size());
        Runnable settled = () -> {
            if (left.decrementAndGet() == 0) {
                tellEnd();
            }
        };
        open.forEach(stage -> stage.observe(settled));
        settled.run();
    }

    /** Whether a stage that has an object, or is of the flow, isn't settled. */
    boolean isOpen(int number) {
        synchronized (lock()) {
            boolean isKnown = number < stages.length && stages[number] != null;
            return isKnown || flow != null && number < flow.stageCount() && !machine.isOver() && !machine.isSettled(number);
        }
    }

    /** Hands the history to the service's hook and meter, once. It throws nothing, and doesn't wait. */
    private void tellEnd() {
        try {
            History history;
            synchronized (lock()) {
                if (isEndTold) {
                    return;
                }
                isEndTold = true;
                history = takeHistory();
            }
            if (service.meter() != null) {
                service.meter().tellEnd(this, history);
            }
            if (service.ends() != null) {
                service.ends().tell(() -> history.describeBy(describe), context);
            }
        } catch (Throwable none) {
            Ends.warn("cf.service", "the end of a request isn't told", none);
        }
    }

    void setName(int stage, String name) {
        synchronized (lock()) {
            if (names == null || names.length <= stage) {
                names = names == null ? new String[Math.max(stage + 1, 8)] : Arrays.copyOf(names, 2 * stage);
            }
            names[stage] = name;
        }
    }

    /** A stage's name, or else its form and number. */
    String nameOf(Stage<?> stage) {
        synchronized (lock()) {
            String given = names == null || names.length <= stage.number ? null : names[stage.number];
            given = given == null && flow != null && stage.number < flow.stageCount() ? flow.name(stage.number) : given;
            return given != null ? given : stage.form.text + " " + stage.number;
        }
    }

    /** A stage's number, and its name or form. */
    String numberedName(Stage<?> stage) {
        synchronized (lock()) {
            String given = names == null || names.length <= stage.number ? null : names[stage.number];
            given = given == null && flow != null && stage.number < flow.stageCount() ? flow.name(stage.number) : given;
            return stage.number + " " + (given != null ? given : stage.form.text);
        }
    }

    /** The request's lock. */
    Machine lock() {
        if (Waits.leader() != null && !Thread.holdsLock(machine)) {
            Waits.awaitTurn();
        }
        return machine;
    }

    // Attaching.

    /** A stage without sources. Its word waits for the claim by the executor's thread. */
    <U> Stage<U> attachStarted(Scope scope, Form form, Object function, Executor executor) {
        if (next != null && scope == null) {
            return lastRequest().attachStarted(null, form, function, executor);
        }
        checkDepth();
        Object carried = service.withContext(function);
        Stage<U> stage = null;
        synchronized (lock()) {
            requireOpen(scope);
            if (machine.hasPlace(1)) {
                stage = attachHere(scope, form, null, null, carried, executor, false, null);
            }
        }
        if (stage == null) {
            return openFurther(scope).attachStarted(null, form, carried, executor);
        }
        handStarted(stage);
        return stage;
    }

    private void handStarted(Stage<?> stage) {
        if (watch != null) {
            watch.eventTold();
            watch.submit(new StageTask(stage));
            return;
        }
        try {
            stage.executor.execute(new StageTask(stage));
        } catch (Throwable refused) {
            FollowUps followUps = new FollowUps(watch);
            failRefused(stage, refused, followUps);
            tell(followUps);
            Request.<RuntimeException>rethrow(refused);
        }
    }

    @SuppressWarnings("unchecked")
    static <E extends Throwable> void rethrow(Throwable error) throws E {
        throw (E) error;
    }

    /** A stage that waits for all of those, or for one of them, which are of any request. */
    <U> Stage<U> gather(Scope scope, Form form, CompletionStage<?>[] of) {
        for (CompletionStage<?> each : of) {
            Objects.requireNonNull(each);
        }
        return attachGathering(scope, form, of.clone());
    }

    /** Of up to two it is one stage; of more as many as the machine needs, in one call. */
    private <U> Stage<U> attachGathering(Scope scope, Form form, CompletionStage<?>[] of) {
        if (of.length < 3) {
            return attach(scope, form, of.length > 0 ? of[0] : null, of.length > 1 ? of[1] : null, null, null, false);
        }
        if (next != null && scope == null) {
            return lastRequest().attachGathering(null, form, of);
        }
        if (isContinued && of.length > MOST_GATHERED && scope == null) {
            return gatherInParts(form, of);
        }
        checkDepth();
        Stage<U> root = null;
        FollowUps followUps = new FollowUps(watch);
        Link[] links = new Link[countForeign(of)];
        try {
            if (hasPlace(of.length - 1 + links.length)) {
                Stage<?>[] row = new Stage<?>[of.length];
                boolean isWhole = adoptAll(scope, of, row, links);
                synchronized (lock()) {
                    requireOpen(scope);
                    if (isWhole && machine.hasPlace(of.length - 1)) {
                        root = attachGathered(scope, form, row, followUps);
                    }
                }
            }
        } finally {
            removeOnceSettled(links, root);
        }
        if (root == null) {
            return openFurther(scope).attachGathering(null, form, of);
        }
        tell(followUps);
        return root;
    }

    private int countForeign(CompletionStage<?>[] of) {
        int count = 0;
        for (CompletionStage<?> each : of) {
            count += isForeign(Objects.requireNonNull(each)) ? 1 : 0;
        }
        return count;
    }

    /** Fills a row with those that are stages of this request, and relays of the others, which nobody needs once what they are made for is settled. */
    private boolean adoptAll(Scope scope, CompletionStage<?>[] of, Stage<?>[] row, Link[] links) {
        boolean isWhole = true;
        for (int k = 0, made = 0; k < row.length; k++) {
            row[k] = isForeign(of[k]) ? attachRelay(scope, of[k], links, made++, true) : (Stage<?>) of[k];
            isWhole &= row[k].request == this;
        }
        return isWhole;
    }

    /** A stage that ends once so many of those, which are of any request, have values, or too few can have them still. */
    Joined attachJoin(Scope scope, int wanted, CompletionStage<?>[] of) {
        if (wanted < 1 || wanted > of.length) {
            throw new IllegalArgumentException(wanted + " of " + of.length + " stages can't be wanted");
        }
        if (next != null && scope == null) {
            return lastRequest().attachJoin(null, wanted, of);
        }
        checkDepth();
        Stage<?> join = null;
        FollowUps followUps = new FollowUps(watch);
        Link[] links = new Link[countForeign(of)];
        Stage<?>[] row = new Stage<?>[of.length];
        try {
            if (of.length <= Machine.MOST_STAGES && hasPlace(1 + links.length)) {
                boolean isWhole = adoptAll(scope, of, row, links);
                synchronized (lock()) {
                    requireOpen(scope);
                    if (isWhole && machine.hasPlace(1)) {
                        join = attachJoined(scope, wanted, row, followUps);
                    }
                }
            }
        } finally {
            removeOnceSettled(links, join);
        }
        if (join == null) {
            return openFurther(scope).attachJoin(null, wanted, of);
        }
        tell(followUps);
        return new Joined(join, row);
    }

    private Stage<?> attachJoined(Scope scope, int wanted, Stage<?>[] of, FollowUps followUps) {
        int who = callerNumber();
        Stage<?> join = attachHere(scope, Form.SOURCE, null, null, null, null, false, null);
        setName(join.number, wanted + " of " + of.length);
        setJoin(join, wanted, numbersOf(of), false, who);
        joins = joins == null ? new BitSet() : joins;
        joins.set(join.number);
        for (Stage<?> each : of) {
            each.dependents++;
        }
        publish(followUps, who);
        return join;
    }

    /** Sets a join of this stage, which the caller publishes. The lock is held. */
    private void setJoin(Stage<?> stage, int wanted, short[] of, boolean cancels, int who) {
        machine.join(stage.number, wanted, of, cancels, who);
        keepUnwritten(stage, () -> machine.join(stage.number, wanted, of, cancels, Machine.NOBODY));
        for (int k = 0; watch != null && k < of.length; k++) {
            watch.stageFollows(this, stage.number, of[k]);
        }
    }

    // Scopes.

    /** Attaches a source that stands for a scope, within this one if there is one. */
    Stage<Void> attachScope(Scope outer) {
        if (next != null && outer == null) {
            return lastRequest().attachScope(null);
        }
        checkDepth();
        Stage<Void> stage = null;
        synchronized (lock()) {
            requireOpen(outer);
            if (machine.hasPlace(1)) {
                stage = attachHere(outer, Form.SOURCE, null, null, Stage.ASIDE, null, false, null);
            }
        }
        if (stage == null) {
            return openFurther(outer).attachScope(null);
        }
        if (watch != null) {
            watch.eventTold();
        }
        return stage.named("scope");
    }

    /** Throws where nothing can be attached in a scope any more. The lock is held. */
    private void requireOpen(Scope scope) {
        if (scope != null && scope.stage.outcome != null) {
            if (watch != null) {
                watch.settlingTried(this, scope.stage.number, false);
            }
            throw new ScopeEndedException(name, scope.name());
        }
    }

    /** Puts a stage, and the relay that it may have, into an open scope, and claims what is ready then, unless it can't be. The lock is held. */
    private void putIn(Scope scope, Stage<?> relay, Stage<?> stage, int who, FollowUps followUps) {
        stage.extras().scope = scope;
        if (stage.outcome == null) {
            setJoin(stage, 1, new short[] {scope.stage.number}, true, relay == null && followUps != null ? who : Machine.NOBODY);
        }
        if (relay != null) { // It comes second: where the scope ends, the stage is cancelled itself, and not since its relay is.
            putIn(scope, null, relay, who, followUps);
        } else if (followUps != null && stage.outcome == null) {
            publish(followUps, who);
        }
    }

    /** Lets a scope end with a stage of this request. */
    void endWith(Scope scope, Stage<?> stage) {
        checkDepth();
        FollowUps followUps = new FollowUps(watch);
        synchronized (lock()) {
            if (scope.stage.outcome == null) {
                int who = callerNumber();
                setJoin(scope.stage, 1, new short[] {stage.number}, true, who);
                publish(followUps, who);
            } else if (watch != null) {
                watch.settlingTried(this, scope.stage.number, false);
            }
        }
        tell(followUps);
    }

    /** The open stages of a scope and of those within it. The lock is held. */
    List<Stage<?>> openStages(Scope scope) {
        List<Stage<?>> open = new ArrayList<>();
        for (Stage<?> stage : stages) {
            if (stage != null && stage.function != Stage.ASIDE && scope.holds(stage)) {
                open.add(stage);
            }
        }
        return open;
    }

    private static short[] numbersOf(Stage<?>[] of) {
        short[] numbers = new short[of.length];
        for (int k = 0; k < of.length; k++) {
            numbers[k] = of[k].number;
        }
        return numbers;
    }

    /** More than one request may have room for: what waits for all waits for stages that wait for a part each. */
    private <U> Stage<U> gatherInParts(Form form, CompletionStage<?>[] of) {
        Stage<?>[] parts = new Stage<?>[(of.length - 1) / MOST_GATHERED + 1];
        for (int k = 0, from = 0; k < parts.length; k++, from += MOST_GATHERED) {
            parts[k] = attachGathering(null, form, Arrays.copyOfRange(of, from, Math.min(of.length, from + MOST_GATHERED)));
        }
        Stage<U> root = attachGathering(null, form, parts);
        for (Stage<?> part : parts) {
            // Nobody needs a part then, and the relays of one that ends are let go.
            root.observe(() -> {
                if (part.outcome == null) {
                    part.cancel(false);
                }
            });
        }
        return root;
    }

    /** Attaches one stage less than there are sources, and gives the last one. The others have an object only for a scope, a watch or a recording. */
    private <U> Stage<U> attachGathered(Scope scope, Form form, Stage<?>[] of, FollowUps followUps) {
        int who = callerNumber(), first = machine.stages(), count = of.length - 1;
        short[] numbers = numbersOf(of);
        Stage<?>[] made = new Stage<?>[count];
        for (int k = scope != null || watch != null || Recorder.hasStages() ? 0 : count - 1; k < count; k++) {
            made[k] = new Stage<>(this, first + k, form, null, null);
        }
        growStages(first + count);
        machine.gather(form, numbers, who);
        System.arraycopy(made, 0, stages, first, count);
        for (Stage<?> each : of) {
            each.dependents++;
        }
        for (int k = 0; watch != null && k < count; k++) {
            noteAttached(made[k], k == 0 ? of[0] : made[k - 1], of[k + 1]);
        }
        publish(followUps, who);
        for (int k = 0; scope != null && k < count; k++) {
            putIn(scope, null, made[k], who, followUps);
        }
        @SuppressWarnings("unchecked")
        Stage<U> root = (Stage<U>) made[count - 1];
        return root;
    }

    /** Removes these links once that stage is settled, or now where it is null, since there was no place. */
    private static void removeOnceSettled(Link[] links, Stage<?> stage) {
        for (Link link : links) {
            if (link != null && stage != null) {
                link.removeOnceSettled(stage);
            } else if (link != null) {
                link.run();
            }
        }
    }

    /** Attaches a stage behind those, which are of any request. What it takes of them, it takes at once. */
    <U> Stage<U> attach(Scope scope, Form form, CompletionStage<?> first, CompletionStage<?> second, Object function, Executor executor,
            boolean minimal) {
        if (next != null && scope == null) {
            return lastRequest().attach(null, form, first, second, function, executor, minimal);
        }
        int foreign = (isForeign(first) ? 1 : 0) + (isForeign(second) ? 1 : 0);
        if (foreign > 0) {
            checkDepth();
        }
        Object carried = service.withContext(function);
        Stage<U> stage = null;
        FollowUps followUps = null;
        Link[] links = foreign == 0 ? NO_LINKS : new Link[2];
        try {
            if (foreign == 0 || hasPlace(1 + foreign + (form.composes ? 1 : 0))) {
                Stage<?> a = stageOrRelay(scope, form, first, links, 0), b = stageOrRelay(scope, form, second, links, 1);
                // What went to a further request is of no use here.
                if ((a == null || a.request == this) && (b == null || b.request == this)) {
                    synchronized (lock()) {
                        requireOpen(scope);
                        if (machine.hasPlace(form.composes ? 2 : 1)) {
                            if (!mayWait(form, a, b)) {
                                checkDepth();
                                followUps = new FollowUps(watch);
                            }
                            stage = attachHere(scope, form, a, b, carried, executor, minimal, followUps);
                        }
                    }
                }
            }
        } finally {
            removeOnceSettled(links, stage);
        }
        if (stage == null) {
            return openFurther(scope).attach(null, form, first, second, carried, executor, minimal);
        }
        if (followUps != null) {
            tell(followUps);
        } else if (watch != null) {
            watch.eventTold();
        }
        return stage;
    }

    /** That stage, or a relay of it for a stage of this form, whose link is in this place then. */
    private Stage<?> stageOrRelay(Scope scope, Form form, CompletionStage<?> of, Link[] links, int at) {
        return isForeign(of) ? attachRelay(scope, of, links, at, !form.handles) : (Stage<?>) of;
    }

    private boolean isForeign(CompletionStage<?> of) {
        return of != null && !(of instanceof Stage<?> && ((Stage<?>) of).request == this);
    }

    private boolean hasPlace(int more) {
        synchronized (lock()) {
            return machine.hasPlace(more);
        }
    }

    /** Whether a stage behind those can't have anything to do yet, so that its word may wait for the next one. The lock is held. */
    private static boolean mayWait(Form form, Stage<?> a, Stage<?> b) {
        return form == Form.SOURCE || a != null && a.outcome == null && (b == null || b.outcome == null);
    }

    /** The request to which stages go now. */
    private Request lastRequest() {
        Request at = this;
        for (Request after; (after = at.next) != null;) {
            at = after;
        }
        return at;
    }

    /** The request to which stages of no scope go where there is no place here: a scope stays in one request. */
    private Request openFurther(Scope scope) {
        synchronized (lock()) {
            if (!isContinued || scope != null) {
                throw new RequestFullException(new Full(name));
            }
            if (next == null) {
                next = new Request(service, name + ", further", null, 32, describe, context).continueInNext();
            }
            return next;
        }
    }

    private <U> Stage<U> attachHere(Scope scope, Form form, Stage<?> a, Stage<?> b, Object function, Executor executor, boolean minimal,
            FollowUps followUps) {
        int who = callerNumber();
        Stage<?> relay = null;
        if (form.composes) {
            relay = new Stage<>(this, machine.stages(), Form.SOURCE, Stage.ASIDE, null);
            putStage(relay);
            reserve(who);
            if (watch != null) {
                noteAttached(relay, null, null);
            }
        }
        int number = machine.stages();
        Stage<U> stage = minimal ? new MinimalStage<>(this, number, form, function, executor)
                : new Stage<>(this, number, form, function, executor);
        int lane = executor == null ? Machine.HERE : Machine.BY_EXECUTOR;
        int sources = b != null ? 2 : a != null ? 1 : 0;
        long word = Words.attach(who, form, sources, a == null ? 0 : a.number, b == null ? 0 : b.number, form.calls ? number : 0);
        putStage(stage); // One whose word fails makes place for the next one of its number.
        if (followUps == null) {
            machine.attachLater(word, lane);
        } else {
            machine.attach(word, lane, scope == null ? who : Machine.NOBODY); // In a scope it can be claimed once it has been put in.
        }
        if (a != null) {
            a.dependents++;
        }
        if (b != null && b != a) {
            b.dependents++;
        }
        if (watch != null) {
            noteAttached(stage, a, b);
        }
        if (followUps != null) {
            publish(followUps, scope == null ? who : Machine.NOBODY);
        }
        if (scope != null) {
            putIn(scope, relay, stage, who, followUps);
        }
        return stage;
    }

    private void noteAttached(Stage<?> stage, Stage<?> a, Stage<?> b) {
        stamp();
        watch.stageAttached(stage, b != null ? Arrays.asList(a, b) : a != null ? Collections.singletonList(a) : Collections.emptyList());
    }

    private int reserve(int who) {
        return machine.attachLater(Words.attach(who, Form.SOURCE, 0, 0, 0, 0), Machine.HERE);
    }

    private void putStage(Stage<?> stage) {
        growStages(stage.number + 1);
        stages[stage.number] = stage;
    }

    private void growStages(int count) {
        if (count > stages.length) {
            stages = Arrays.copyOf(stages, Math.min(Machine.MOST_STAGES, Math.max(count + 7, 2 * stages.length)));
        }
    }

    /** Attaches a source for a stage that is being made, which calls {@link #enterReserved}; its number, or -1 where there is no place. */
    int reserve() {
        checkDepth();
        synchronized (lock()) {
            return machine.hasPlace(1) ? reserve(callerNumber()) : -1;
        }
    }

    void enterReserved(Stage<?> stage) {
        synchronized (lock()) {
            putStage(stage);
            if (watch != null) {
                noteAttached(stage, null, null);
            }
        }
    }

    Request nextOrFurther() {
        return next != null ? next : openFurther(null);
    }

    /** The stage of a number, which is made now where it is a flow's. */
    private Stage<?> stageAt(int number) {
        Stage<?> stage = number < stages.length ? stages[number] : null;
        if (stage == null && flow != null && number < flow.stageCount()) {
            stage = flow.stage(this, number);
            putStage(stage);
        }
        return stage;
    }

    /** Starts a flow's request: its promises get these values, in their order. */
    void startFlow(Object[] given) {
        checkDepth();
        FollowUps followUps = new FollowUps(watch);
        synchronized (lock()) {
            for (int k = 0; watch != null && k < flow.stageCount(); k++) {
                watch.stageAttached(stageAt(k), Arrays.stream(flow.plannedStage(k).sources).mapToObj(this::stageAt).collect(Collectors.toList()));
            }
            int who = callerNumber(), count = Layout.MOST_READY;
            for (int from = 0; flow.startsReady() && count == Layout.MOST_READY;) {
                count = machine.fetchReady(from);
                for (int k = 0; k < count; k++) {
                    from = machine.readyStage(k) + 1;
                    followUps.addHanded(stageAt(machine.readyStage(k)));
                }
            }
            for (int k = 0; k < given.length; k++) {
                applyWord(Words.complete(who, flow.promiseStage(k), numberOf(given[k])), who, followUps);
            }
        }
        tell(followUps);
    }

    // Settling.

    boolean complete(int stage, Object value) {
        return settle(Words.COMPLETE, stage, value);
    }

    boolean fail(int stage, Throwable error) {
        return settle(Words.FAIL, stage, error);
    }

    boolean cancel(int stage) {
        return settle(Words.CANCEL, stage, null);
    }

    /**
     * Cancels all stages that aren't settled, the last one first, so no function behind them is called. A function that runs goes on; its answer
     * comes too late. All scopes end. Stages can still be attached to the request. It takes one event for each such stage; stages of {@link #next}
     * aren't cancelled.
     */
    public void cancelAll() {
        checkDepth();
        FollowUps followUps = new FollowUps(watch);
        synchronized (lock()) {
            int who = callerNumber();
            if (watch != null) {
                watch.historyRead(this);
            }
            for (int k = machine.stages() - 1; k >= 0; k--) {
                if (isOpen(k) && (whole == null || whole.stage.number != k)) {
                    applyWord(Words.cancel(who, k), who, followUps);
                }
            }
        }
        tell(followUps);
    }

    /** Does one word and its follow-ups, and says whether it settled the stage. */
    private boolean settle(int kind, int stage, Object given) {
        checkDepth();
        FollowUps followUps = new FollowUps(watch);
        boolean did;
        synchronized (lock()) {
            int who = callerNumber();
            did = applyWord(settlingWord(kind, who, stage, given), who, followUps);
        }
        tell(followUps);
        return did;
    }

    /** The word that settles a stage with what is given: a value, an exception, or nothing. */
    private long settlingWord(int kind, int who, int stage, Object given) {
        switch (kind) {
            case Words.COMPLETE:
                return Words.complete(who, stage, numberOf(given));
            case Words.FAIL:
                return Words.fail(who, stage, codeOf((Throwable) given));
            default:
                return Words.cancel(who, stage);
        }
    }

    // Limits of time.

    /** Sets a limit of time, at which the stage gets this value, or times out. */
    void setLimit(Stage<?> stage, long time, TimeUnit unit, boolean gives, Object value) {
        if (watch != null) {
            if (stage.readOutcome(true) == null) {
                watch.setLimit(stage, Math.max(0, unit.toNanos(time)), () -> settleAtLimit(stage, gives, value));
            }
            return;
        }
        long moment = Clock.moment(time, unit);
        synchronized (lock()) {
            if (stage.outcome != null) {
                return;
            }
            long due = moment;
            int number = gives ? numberOf(value) : 0;
            machine.setDeadline(stage.number, due, gives, number);
            keepUnwritten(stage, () -> machine.setDeadline(stage.number, due, gives, number));
            alarm = alarm != null ? alarm : new Alarm(this);
            alarm.setDue(machine.nextDeadline());
            moment = alarm.missing();
        }
        if (moment < Alarm.NEVER) {
            alarm.set(moment);
        }
    }

    /**
     * Lets time pass up to the next deadline, if that has come. The functions behind it may take long, so the one after it has a thread of its own.
     */
    void passTime(Alarm.Ring ring) {
        FollowUps followUps = new FollowUps(watch);
        long missing;
        synchronized (lock()) {
            long moment = alarm.takeDue(ring);
            if (moment < Alarm.NEVER) {
                int who = callerNumber();
                machine.passTimeTo(moment, who);
                publish(followUps, who);
            }
            missing = alarm.missing();
        }
        try {
            if (missing < Alarm.NEVER) {
                alarm.set(missing);
            }
        } catch (Throwable none) {
            followUps.failure = none;
        }
        tell(followUps);
    }

    /** Settles a stage whose limit a watch lets pass. */
    private void settleAtLimit(Stage<?> stage, boolean gives, Object value) {
        FollowUps followUps = new FollowUps(watch);
        synchronized (lock()) {
            long word = gives ? Words.complete(CLOCK, stage.number, numberOf(value)) : Words.failAs(CLOCK, stage.number, Words.TIMED_OUT, 0);
            applyWord(word, callerNumber(), followUps);
        }
        tell(followUps);
    }

    /** Tells a machine that was opened again what isn't in the words. */
    private void restoreUnwritten() {
        for (Stage<?> stage : stages) {
            if (stage != null && stage.hasUnwritten()) {
                stage.extras.unwritten.forEach(Runnable::run);
            }
        }
    }

    /** Keeps what tells a machine that is opened again one thing more of this stage, which the machine may just have settled. */
    private void keepUnwritten(Stage<?> stage, Runnable tells) {
        Stage.Extras more = stage.extras();
        more.unwritten = more.unwritten != null ? more.unwritten : new ArrayList<>(1);
        more.unwritten.add(tells);
        unwritten++;
    }

    /** Stops the request's alarm where the machine has no deadline any more, and gives back the core of a closed one that has no relay either. */
    private void stopClockIfIdle() {
        Alarm.Ring over;
        synchronized (lock()) {
            over = alarm == null ? null : alarm.takeIfIdle();
            if (isClosed && unwritten == 0) {
                isClosed = false;
                machine.giveBackCore(null);
            }
        }
        Alarm.stop(over);
    }

    // Relays.

    /** The word by which a relay is settled as a stage of another request or a future was; see {@link Link#wraps}. */
    private long relayWord(int relay, Object told, boolean wraps) {
        if (told instanceof Fault) {
            Fault fault = (Fault) told;
            // Who would see that it isn't wrapped any more gets the exception itself.
            if (fault.isTimeout && (wraps || !fault.isWrapped())) {
                return Words.failAs(RELAY, relay, Words.TIMED_OUT, 0);
            }
            // A cancellation that says more keeps it.
            boolean isPlain = !fault.isCoded && fault.error().getClass() == CancellationException.class && fault.error().getMessage() == null;
            return isPlain ? Words.cancel(RELAY, relay) : Words.fail(RELAY, relay, codeOf(fault.error()));
        }
        return Words.complete(RELAY, relay, numberOf(told == Stage.NIL ? null : told));
    }

    /** Hangs a relay on a future that is no stage of its request, and gives what that throws when it is asked, which fails the relay; or null. */
    private static Throwable hangLink(Link link, CompletionStage<?> of, FollowUps followUps) {
        Object told;
        Throwable thrown = null;
        if (of instanceof Stage<?>) {
            Stage<?> other = (Stage<?>) of;
            told = other.request.addOutsideLink(other, link) ? null : other.outcome;
        } else {
            try {
                told = link.hangOn(of);
            } catch (Throwable refusal) {
                thrown = refusal;
                told = new Fault(refusal);
            }
        }
        if (told != null) {
            settleRelayOf(link, told, followUps);
        }
        return thrown;
    }

    /** Settles the relay of a link as a future is that is no stage. */
    static void settleLinked(Link link, Object told) {
        if (!Native.hasStack()) {
            Clock.runElsewhere(() -> settleLinked(link, told));
            return;
        }
        FollowUps followUps = new FollowUps(link.relayWatch());
        settleRelayOf(link, told, followUps);
        tell(followUps);
    }

    private static void settleRelayOf(Link link, Object told, FollowUps followUps) {
        Stage<?> relay = link.takeRelay();
        if (relay != null) {
            relay.request.settleRelay(relay, told, link.wraps, followUps);
        }
    }

    private void settleRelay(Stage<?> relay, Object told, boolean wraps, FollowUps followUps) {
        if (told instanceof Fault) {
            ((Fault) told).error(); // Before the lock is held.
        }
        synchronized (lock()) {
            int who = callerNumber();
            long word = relayWord(relay.number, told, wraps);
            if (relay.outcome == null && told instanceof Fault && Words.kind(word) != Words.FAIL) {
                faults().shareFault(relay.number, Words.kind(word) == Words.CANCEL ? Layout.CANCELLED : Layout.TIMED_OUT, 0, (Fault) told);
            }
            applyWord(word, who, followUps);
        }
    }

    private boolean addOutsideLink(Stage<?> stage, Link link) {
        synchronized (lock()) {
            if (stage.outcome == null) {
                Stage.Extras more = stage.extras();
                more.outsideLinks = addLink(more.outsideLinks, link);
                link.setSource(stage);
                return true;
            }
            return false;
        }
    }

    private static Link.Chain addLink(Link.Chain row, Link link) {
        Link.Chain longer = row != null ? row : new Link.Chain();
        longer.add(link);
        return longer;
    }

    void unlink(Stage<?> stage, Link link) {
        synchronized (lock()) {
            stage.extras.outsideLinks.remove(link);
        }
    }

    /** The links that hang on a settled stage outside its request. */
    private Link takeOutsideLinks(Stage<?> stage) {
        synchronized (lock()) {
            return stage.extras.outsideLinks.takeAll();
        }
    }

    /** Throws where there might not be stack enough to tell what a word changes: it isn't done then. */
    private static void checkDepth() {
        if (!Native.hasStack()) {
            throw new StackOverflowError("cf.service: the stack is nearly full, and nothing was changed");
        }
    }

    /** Does one word under the lock, and says whether its answer is 1, as of a stage that it settled. */
    boolean applyWord(long word, int who, FollowUps followUps) {
        machine.apply(word, who);
        boolean answer = machine.answer() == 1;
        publish(followUps, who);
        if (watch != null) {
            watch.settlingTried(this, Words.stage(word), answer);
        }
        return answer;
    }

    /** Settles under the lock the objects of settled stages, and notes the functions to call and the stages for executors. */
    private void publish(FollowUps followUps, int who) {
        Recorder recorder = Recorder.current();
        if (recorder != null) {
            record(recorder);
        }
        if (alarm != null) {
            alarm.setDue(machine.nextDeadline());
        }
        try {
            do {
                for (int k = 0, count = machine.settledCount(); k < count; k++) {
                    takeSettled(k, followUps);
                }
                for (int k = 0, count = machine.claimedCount(); k < count; k++) {
                    takeClaimed(k, followUps);
                    if (watch != null) {
                        watch.functionReady(this, machine.claimedStage(k));
                    }
                }
                for (int k = 0, count = machine.readyCount(); k < count; k++) {
                    followUps.addHanded(stageAt(machine.readyStage(k)));
                    if (watch != null) {
                        watch.functionReady(this, machine.readyStage(k));
                    }
                }
            } while (machine.fetchMore(who));
        } catch (OutOfMemoryError refused) {
            followUps.failure = refused;
        }
        if (watch != null) {
            stamp();
        } else if (isSingle && machine.isOver() && machine.stages() == 1) {
            machine.tryGiveBackCore();
        } else if (mayGiveBackCore()) {
            followUps.overMachine = machine;
        }
    }

    /** Whether its core may be given back unasked: not before a flow's was asked for a stage, since the machine has to tell of that. */
    private boolean mayGiveBackCore() {
        return machine.mayGiveBackCore() && (flow == null || isAsked);
    }

    /** Gives the events since the last time this moment of the watch's. */
    private void stamp() {
        int events = machine.events();
        if (events > stampedEvents) {
            moments = moments.length < events ? Arrays.copyOf(moments, 2 * events) : moments;
            Arrays.fill(moments, stampedEvents, events, watch.now(this));
            stampedEvents = events;
        }
    }

    /** Settles the object of the kth settled stage. */
    private void takeSettled(int k, FollowUps followUps) {
        int at = machine.settledStage(k);
        Stage<?> stage = at < stages.length ? stages[at] : null;
        if (stage == null && Recorder.hasStages()) {
            stage = stageAt(at);
        }
        Object told = outcomeOf(k);
        if (watch != null) {
            watch.stageSettled(this, at, told instanceof Fault || told == Stage.NIL ? null : told,
                    told instanceof Fault ? ((Fault) told).rawError() : null, told instanceof Fault && ((Fault) told).isWrapped());
        }
        if (stage != null) {
            stages[at] = null;
            if (stage.hasUnwritten()) {
                unwritten -= stage.extras.unwritten.size();
                stage.extras.unwritten = Collections.emptyList();
            }
            if (told instanceof Fault && stage.scope() != null && !stage.hasJavaDependents()) {
                stage.scope().addFailed(stage, (Fault) told);
            }
            stage.setOutcome(told);
            followUps.addSettled(stage);
        }
    }

    private Object outcomeOf(int k) {
        int at = machine.settledStage(k), kind = machine.settledKind(k), number = machine.settledNumber(k, kind);
        if (kind == Layout.VALUE) {
            return number == Words.NIL ? Stage.NIL : values[number];
        }
        Stage<?> stage = at < stages.length ? stages[at] : null;
        if (stage != null && stage.extras != null && stage.extras.followedStage >= 0) {
            faults().shareFault(at, kind, number, faults().faultOf(stage.extras.followedStage));
        }
        return faults().faultOfSettled(at, kind, machine.isWrapped(k), number);
    }

    /** The exception of a stage's failed source. It may have to be made: no lock is held. */
    Throwable failure(ClaimedCall call) {
        Fault fault;
        synchronized (lock()) {
            fault = faults().faultOfSettled(sources().sourcesOf(call.number)[0], call.sourceKind, call.isSourceWrapped, call.failureCode);
        }
        return fault.error();
    }

    private void claimStage(Stage<?> stage, int who, FollowUps followUps) {
        machine.apply(Words.claim(who, stage.number), who);
        publish(followUps, who);
    }

    /** Takes the function of the kth claimed stage, and its arguments. */
    private void takeClaimed(int k, FollowUps followUps) {
        int number = machine.claimedStage(k), sourceKind = Layout.VALUE;
        Stage<?> stage = number < stages.length ? stages[number] : null;
        Object function = stage != null ? stage.function : flow.function(number), first = null, second = null;
        if (stage != null) {
            stage.function = null;
        }
        if (context != null && flow != null && number < flow.stageCount()) {
            function = new ContextFunction(context, function);
        }
        switch (machine.argumentsKind(k)) {
            case Layout.NO_ARGS:
                break;
            case Layout.ONE:
                first = value(machine.firstArgument(k));
                break;
            case Layout.TWO:
                first = value(machine.firstArgument(k));
                second = value(machine.secondArgument(k));
                break;
            default:
                sourceKind = machine.sourceKind(k);
                first = sourceKind == Layout.VALUE ? value(machine.firstArgument(k)) : null;
        }
        ClaimedCall call = followUps.newCall();
        call.request = this;
        call.number = number;
        call.stage = stage;
        call.form = stage != null ? stage.form : flow.form(number);
        call.function = function;
        call.first = first;
        call.second = second;
        call.sourceKind = sourceKind;
        if (sourceKind != Layout.VALUE) {
            call.isSourceWrapped = machine.isSourceWrapped(k);
            call.failureCode = machine.firstArgument(k);
        }
        followUps.addCall(call);
    }

    private FollowUps claimForWatch(Stage<?> stage) {
        FollowUps followUps = new FollowUps(watch);
        synchronized (lock()) {
            claimStage(stage, callerNumber(), followUps);
        }
        watch.eventTold();
        return followUps;
    }

    /** Claims a stage for an executor's thread, calls its function, and then all that this thread is to call. */
    void claimAndCall(Stage<?> stage) {
        checkDepth();
        FollowUps followUps = new FollowUps(watch);
        synchronized (lock()) {
            claimStage(stage, callerNumber(), followUps);
        }
        tell(followUps);
    }

    /**
     * Wakes waiters, hands stages to executors, and calls functions until there is none that this thread is to call. If one of them throws an Error,
     * the others come all the same, and the first Error is thrown at the end.
     */
    static void tell(FollowUps followUps) {
        if (followUps.watch != null) {
            followUps.watch.eventTold();
            followUps.watch.takeOver(followUps);
            return;
        }
        Throwable first = null;
        for (boolean goesOn = true; goesOn;) {
            try {
                goesOn = tellNext(followUps);
            } catch (Throwable thrown) {
                first = first == null ? thrown : first;
            }
        }
        first = first == null ? followUps.failure : first;
        if (first != null) {
            Request.<RuntimeException>rethrow(first);
        }
    }

    /** Does one follow-up, and says whether there was one. It is taken out first, so that it comes but once. */
    static boolean tellNext(FollowUps followUps) {
        Stage<?> stage;
        Link link;
        ClaimedCall call;
        Machine over;
        if ((over = followUps.pollOver()) != null) {
            over.giveBackLater();
        } else if ((link = followUps.pollRelayed()) != null) {
            settleRelayOf(link, followUps.relayedOutcome, followUps);
        } else if ((stage = followUps.pollSettled()) != null) {
            if (stage.extras != null && stage.extras.outsideLinks != null) {
                followUps.setRelayed(stage.request.takeOutsideLinks(stage), stage.outcome);
            }
            Running running = stage.extras == null ? null : stage.extras.running;
            if (running != null) {
                running.stop();
            }
            if (followUps.watch != null && stage.hasJavaDependents()) {
                followUps.watch.callUserCode(stage::wakeWaiters);
            } else {
                stage.wakeWaiters();
            }
            if (stage.hasUnwritten()) {
                stage.request.stopClockIfIdle();
            }
            if (stage.request.isSingle && stage.request.service.tellsEnds()) {
                stage.request.tellEndIfAlone();
            }
        } else if ((stage = followUps.pollHanded()) != null) {
            stage.request.handToExecutor(stage, followUps);
        } else if ((call = followUps.pollCall()) != null) {
            call.request.callFunction(call, followUps);
        } else {
            return false;
        }
        return true;
    }

    /** Hands a task to this executor. If the executor refuses the function of a stage, the stage fails with that. */
    static void execute(Executor executor, Runnable act) {
        try {
            executor.execute(act);
        } catch (Throwable refused) {
            if (!(act instanceof StageTask)) {
                throw refused;
            }
            Stage<?> stage = ((StageTask) act).stage;
            FollowUps followUps = new FollowUps(stage.request.watch);
            stage.request.failRefused(stage, refused, followUps);
            tell(followUps);
        }
    }

    private void handToExecutor(Stage<?> stage, FollowUps followUps) {
        if (watch != null) {
            watch.submit(new StageTask(stage));
            return;
        }
        try {
            stage.executor.execute(new StageTask(stage));
        } catch (Throwable refusal) {
            failRefused(stage, refusal, followUps);
        }
    }

    /** Fails a stage whose executor has refused it with what that threw. */
    private void failRefused(Stage<?> stage, Throwable refused, FollowUps followUps) {
        synchronized (lock()) {
            int who = callerNumber();
            machine.apply(Words.claim(who, stage.number), who);
            if (machine.answer() == Layout.GRANTED) {
                machine.finish(stage.number, true, codeOf(refused), who);
            }
            publish(followUps, who);
        }
    }

    /** Calls a function, unless its stage was settled since it was claimed, and finishes the stage in any case, so that no claim stays open. */
    private void callFunction(ClaimedCall call, FollowUps followUps) {
        int number = call.number;
        Stage<?> stage = call.stage;
        boolean isSettled = stage != null && stage.outcome != null;
        Form form = call.form;
        Object function = call.function, first = call.first, second = null, given = null;
        Throwable thrown = null;
        Running running = null;
        try {
            second = isSettled ? null : call.secondArgument();
            followUps.recycle(call);
            if (service.interrupts() && !isSettled) {
                running = enterFunction(number);
                isSettled = running == null;
            }
            given = isSettled ? null : followUps.call(this, number, stage, form, function, first, second);
        } catch (Throwable error) {
            thrown = error;
        }
        if (running != null) {
            running.leave();
        }
        finish(number, form, second, isSettled, given, thrown, followUps);
    }

    /** From now on whoever settles this stage interrupts this thread, until it leaves; null where the stage is settled. */
    private Running enterFunction(int number) {
        synchronized (lock()) {
            boolean isKnown = number < stages.length && stages[number] != null;
            Stage<?> stage = stageAt(number);
            return stage == null || !isKnown && showIfSettled(stage) ? null : new Running(stage);
        }
    }

    /** Finishes a stage with what its function has returned or thrown, or too late where it was settled before. */
    void finish(int number, Form form, Object second, boolean isSettled, Object given, Throwable thrown, FollowUps followUps) {
        if (thrown != null && form == Form.WHEN_COMPLETE && second != null && second != thrown) {
            ((Throwable) second).addSuppressed(thrown);
        }
        Link link = null;
        synchronized (lock()) {
            int who = callerNumber();
            if (thrown != null) {
                machine.finish(number, true, codeOf(thrown), who);
            } else if (isSettled || !form.composes) {
                machine.finish(number, false, numberOf(given), who);
            } else {
                link = link(number, (CompletionStage<?>) given, who);
            }
            publish(followUps, who);
            if (watch != null && (thrown != null || isSettled || !form.composes)) {
                watch.functionFinished(this, number, -1);
            }
        }
        if (link != null) {
            if (watch != null) {
                watch.relayLinked(stageAt(number - 1), (CompletionStage<?>) given);
            }
            hangLink(link, (CompletionStage<?>) given, followUps);
            link.removeOnceSettled();
        }
    }

    /** Links a stage to the stage that its function gave, or to the relay below it; the relay's link, where something outside settles it. */
    private Link link(int number, CompletionStage<?> to, int who) {
        Stage<?> own = to instanceof Stage<?> && ((Stage<?>) to).request == this ? (Stage<?>) to : null;
        if (own != null) {
            own.noteTaken();
        }
        if (own != null && own.number < number) {
            machine.link(Words.finishLinking(who, number, own.number), -1, 0, who);
            noteFinishLinking(number, own.number);
            return null;
        }
        Stage<?> relay = relayOf(number);
        setName(relay.number, own == null ? "relay of what is elsewhere" : "relay of " + own.number);
        machine.link(Words.finishLinking(who, number, relay.number), own == null ? -1 : relay.number, own == null ? 0 : own.number, who);
        noteFinishLinking(number, relay.number);
        if (watch != null && own != null) {
            watch.stageFollows(this, relay.number, own.number);
        }
        if (machine.answer() != Layout.WON) {
            return null;
        }
        if (own == null) {
            return new Link(relay, stageAt(number), true);
        }
        if (stages[relay.number] == relay) {
            relay.extras().followedStage = own.number;
            keepUnwritten(relay, () -> machine.follow(relay.number, own.number));
        }
        return null;
    }

    private void noteFinishLinking(int number, int to) {
        if (watch != null) {
            watch.functionFinished(this, number, to);
        }
    }

    /** The source below a composing stage, which stands for what its function gives. */
    private Stage<?> relayOf(int number) {
        Stage<?> relay = stageAt(number - 1);
        return relay != null ? relay : new Stage<>(this, number - 1, Form.SOURCE, null, null);
    }

    private void record(Recorder recorder) {
        if (recorder.takesWords()) {
            for (long word : machine.words(recordedWords)) {
                recorder.recordWord(name, word);
            }
        }
        recordedWords = machine.events();
    }

    // What the machine's numbers stand for. The lock is held.

    /** The calling thread's number in words. */
    int callerNumber() {
        if (watch != null) {
            return callerNumber(watch.callerName());
        }
        long id = Thread.currentThread().getId();
        if (thread == id) {
            return FIRST_THREAD;
        }
        for (int k = 1; k < threadCount; k++) {
            if (threads[k] == id) {
                return FIRST_THREAD + k;
            }
        }
        return FIRST_THREAD + threadCount >= OTHER_THREADS ? OTHER_THREADS : addThread(id);
    }

    private int callerNumber(String name) {
        for (int k = 0; k < threadCount; k++) {
            if (threadNames[k].equals(name)) {
                return FIRST_THREAD + k;
            }
        }
        return FIRST_THREAD + threadCount >= OTHER_THREADS ? OTHER_THREADS : addThread(threadCount, name);
    }

    private int addThread(long id) {
        String name = Thread.currentThread().getName();
        return addThread(id, name.isEmpty() ? "thread " + id : name);
    }

    private int addThread(long id, String name) {
        if (threadCount == 0) {
            thread = id;
        } else {
            if (threads == null || threadCount == threads.length) {
                threads = threads == null ? new long[4] : Arrays.copyOf(threads, 2 * threadCount);
            }
            threads[threadCount] = id;
        }
        if (threadCount == threadNames.length) {
            threadNames = Arrays.copyOf(threadNames, 2 * threadCount + 2);
        }
        threadNames[threadCount] = name;
        return FIRST_THREAD + threadCount++;
    }

    private int numberOf(Object value) {
        if (value == null) {
            return Words.NIL;
        }
        if (valueCount > 0 && values[valueCount - 1] == value) {
            return valueCount - 1;
        }
        if (valueCount == values.length) {
            // As a rule each stage gives one.
            values = Arrays.copyOf(values, Math.max(2 * valueCount, machine.stages() + 1));
        }
        values[valueCount] = value;
        return valueCount++;
    }

    private Object value(int number) {
        return number < 0 ? null : values[number];
    }

    private int codeOf(Throwable error) {
        return faults().codeOf(error);
    }

    private Faults faults() {
        return faults != null ? faults : (faults = new Faults(sources()));
    }

    private Sources sources() {
        return sources != null ? sources : (sources = new Sources(flow, machine));
    }

    /** What a stage waits for, by its word: numbers of stages, or those of a flow's. */
    String waitsFor(Stage<?> stage) {
        History history = history();
        return history.waitsFor(stage.number);
    }
}
