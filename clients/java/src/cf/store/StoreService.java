package cf.store;

import cf.internal.Ends;
import cf.internal.Form;
import cf.internal.Host;
import cf.internal.Layout;
import cf.internal.Words;
import cf.service.Describe;
import java.lang.ref.WeakReference;
import java.sql.Connection;
import java.util.ArrayList;
import java.util.Arrays;
import java.util.Collections;
import java.util.HashMap;
import java.util.List;
import java.util.Map;
import java.util.Objects;
import java.util.Set;
import java.util.concurrent.ConcurrentHashMap;
import java.util.concurrent.RejectedExecutionException;
import java.util.concurrent.TimeUnit;
import java.util.concurrent.TimeoutException;
import java.util.concurrent.atomic.AtomicInteger;
import java.util.function.Consumer;

/**
 * Opens requests in a store, and works on them: its threads run functions, and one more thread looks for news. All of them are daemons, so a
 * worker that does nothing else has to keep a thread of its own:
 *
 * <pre>{@code
 * Functions functions = new Functions().with("charge", 1, Shop::charge);
 * StoreService worker = StoreService.builder(JdbcStore.open("jdbc:sqlite:shop.db"), functions).threads(8).takesAll(true).build();
 * Runtime.getRuntime().addShutdownHook(new Thread(worker::close));
 * Thread.currentThread().join();
 * }</pre>
 *
 * <p>Any number of services, in any processes and languages, may work on one store. This one runs its {@link Functions}. A stage whose function isn't
 * registered waits for another process, and a warning says so once, unless {@link Functions#elsewhere} names it. Warnings go to the logger
 * {@code cf.store}.
 *
 * <p>The service puts a sign of life every fifth of its lease, also while it is closed and its functions end. If it was silent for longer than a
 * lease, as while its machine stood still, others fail the stages whose functions it runs, with a {@link RemoteException} of the kind
 * {@link RemoteException#ABANDONED}. It learns that from the row, and puts a sign of life before it claims more.
 *
 * <p>The result of a function is put until it stands, also while the store takes nothing; once the service is closed, for a minute at most. If the
 * store refuses a value twice while it takes something else, the stage fails with a {@code StoreError}. While the payload of a settled stage can't be
 * read, the stage isn't shown as settled; the payload is asked for five times a second.
 */
public final class StoreService implements AutoCloseable {
    /** How long the pump waits for news at most, and how often it looks for timers, in milliseconds. */
    private static final long LONGEST_PAUSE = 200, BETWEEN_TIMERS = 20;
    /** How long the hook may take at the end, in seconds. */
    private static final long LAST_ENDS = 30;

    final Store store;
    final Functions functions;
    final Host host;
    final long session;
    private final int threads;
    private final long lease;
    private final boolean takesAll;
    private final StoredContexts contexts;
    /** Null without a hook. */
    private final Ends<StoredHistory> ends;
    private final Sessions sessions;
    private long nextBeat, nextLook, nextShow;
    private Object newsMark;
    private boolean isNamed;
    private final Map<String, StoredRequest> requests = new HashMap<>();
    /** How often a request was asked for; the lock of the requests guards it. */
    private long keepCount;
    /** Closed requests that somebody here may have. */
    private final Map<String, WeakReference<StoredRequest>> leftRequests = new HashMap<>();
    /** Requests with settled stages whose payloads couldn't be read. */
    private final Set<StoredRequest> unshown = ConcurrentHashMap.newKeySet();
    private final Set<String> brokenNames = ConcurrentHashMap.newKeySet(), unknownFunctions = ConcurrentHashMap.newKeySet(),
            firingTimers = ConcurrentHashMap.newKeySet();
    private volatile boolean isStopping;
    /** Whether others have failed a stage that runs here, and this session has put no sign of life since. */
    private volatile boolean isTakenForGone;
    /** Until when results of functions are put, once this service is closed. */
    private volatile long lastPut;
    /** How many jobs were handed to threads and haven't ended. */
    private final AtomicInteger jobs = new AtomicInteger();

    /** Works on the requests that are opened here, with four threads and a lease of 10 s. The service closes the store. */
    public StoreService(Store store, Functions functions) {
        this(builder(store, functions));
    }

    /** What a service is made with, where it isn't what {@link #StoreService(Store, Functions)} says. The service closes the store. */
    public static Builder builder(Store store, Functions functions) {
        return new Builder(store, functions);
    }

    /** The options of a service. {@link #builder} makes one. */
    public static final class Builder {
        private final Store store;
        private final Functions functions;
        private int threads = 4;
        private long lease = TimeUnit.SECONDS.toNanos(10);
        private boolean takesAll;
        private StoredContexts contexts;
        private Ends<StoredHistory> ends;
        private Host host;

        private Builder(Store store, Functions functions) {
            this.store = Objects.requireNonNull(store);
            this.functions = Objects.requireNonNull(functions);
        }

        /**
         * How many threads run functions; with 0, this process runs none.
         *
         * @throws IllegalArgumentException the number is below 0
         */
        public Builder threads(int threads) {
            if (threads < 0) {
                throw new IllegalArgumentException("threads must not be below 0");
            }
            this.threads = threads;
            return this;
        }

        /**
         * After how long without a sign of life other processes take this one for gone, and fail the stages whose functions it runs.
         *
         * @throws IllegalArgumentException the lease isn't above 0
         */
        public Builder lease(long lease, TimeUnit unit) {
            if (lease <= 0) {
                throw new IllegalArgumentException("the lease has to be above 0");
            }
            this.lease = unit.toNanos(lease);
            return this;
        }

        /** Whether the service works on all open requests of the store, and not only on those that were opened here. */
        public Builder takesAll(boolean takesAll) {
            this.takesAll = takesAll;
            return this;
        }

        /** The contexts that go along with functions. */
        public Builder contexts(StoredContexts contexts) {
            this.contexts = Objects.requireNonNull(contexts);
            return this;
        }

        /**
         * The hook that gets the history of each request that this service closes: of a flow's once all is settled, and of one that is
         * {@link StoredRequest#end ended by hand} here. Where another process closes the request, that process calls its own hook. If a process dies
         * as it closes a request, no hook is called. The hook is called on the thread {@code cf-ends}, for one request after another, with the
         * context of the place where the request was begun, as far as the contexts carry that. What it throws is logged as a warning of
         * {@code cf.store}. {@link StoreService#close} waits until the hook was called for all, for 30 s at most.
         */
        public Builder onEnd(Consumer<? super StoredHistory> hook) {
            ends = new Ends<>(Objects.requireNonNull(hook), "cf.store");
            return this;
        }

        Builder host(Host host) {
            this.host = host;
            return this;
        }

        /**
         * Makes the service, and starts its threads.
         *
         * @throws IllegalArgumentException a function is transactional, and the store has no transactions that it could take part in
         */
        public StoreService build() {
            return new StoreService(this);
        }
    }

    private StoreService(Builder options) {
        store = options.store;
        functions = options.functions;
        if (functions.hasTransactional() && !store.isTransactional()) {
            throw new IllegalArgumentException("the store has no transactions that a function can take part in");
        }
        contexts = options.contexts;
        ends = options.ends;
        threads = options.threads;
        lease = options.lease;
        takesAll = options.takesAll;
        host = options.host == null ? new Host() : options.host;
        session = host.randomBits(NativeRow.SESSION_BITS);
        sessions = new Sessions(lease, host);
        nextBeat = nextLook = host.nanoTime();
        host.startThreads(threads, this::runPump);
    }

    /**
     * Opens a request without stages. If one of this name stands in the store, goes on with that: so a program that is run twice does nothing twice
     * that it attaches once.
     *
     * @param name by which any process finds it
     */
    public StoredRequest request(String name) {
        String plan = StoredPlan.text("", Collections.emptyList(), captureContext());
        return serveOpened(RowView.retryingForAMinute(host, () -> store.open(name, plan)));
    }

    /**
     * Begins a request of a flow's stages. If one of this name stands in the store, goes on with that.
     *
     * @param given the values of its promises, in their order. Those that are settled in the store stay as they are
     * @return the request; {@link StoredRequest#stage(StoredFlow.Step)} gives the stage of a step
     * @throws IllegalArgumentException more values are given than there are promises, a function isn't registered, or JSON hasn't a value
     * @throws StoreException.Broken the request of this name was begun with another plan
     */
    public StoredRequest start(StoredFlow flow, String name, Object... given) {
        if (given.length > flow.promises.size()) {
            throw new IllegalArgumentException(flow.name + " has " + flow.promises.size() + " promises");
        }
        List<byte[]> payloads = new ArrayList<>();
        for (Object value : given) {
            payloads.add(value == null ? null : Json.write(value));
        }
        String plan = flow.text(functions, captureContext());
        while (true) {
            Store.Opened found = RowView.retryingForAMinute(host, () -> store.open(name, plan));
            if (!StoredFlow.areAlike(found.plan, plan)) {
                throw new StoreException.Broken(name, 0, "it was begun with another plan");
            }
            StoredRequest request = serveOpened(found);
            if (request.number == found.number) { // (else it was dropped meanwhile, and another of its name begun)
                request.completeAll(flow.promises, payloads);
                return request;
            }
        }
    }

    private Map<String, ?> captureContext() {
        return contexts == null ? Collections.emptyMap() : contexts.capture();
    }

    /** Adds the context of this place to the spec of a stage. */
    Map<String, Object> addContext(Map<String, Object> spec) {
        Map<String, ?> carried = captureContext();
        if (!carried.isEmpty()) {
            spec.put("context", carried);
        }
        return spec;
    }

    /** The spec of a stage that calls the latest version of a function. */
    Map<String, Object> callSpec(String function, boolean composes) {
        Map<String, Object> spec = StoredRequest.namedSpec(function);
        spec.put("fn", function);
        spec.put("version", functions.latestVersion(function, composes));
        return addContext(spec);
    }

    /**
     * A request that stands in the store, as one that another process has begun.
     *
     * @throws StoreException.Gone there is none of this name
     */
    public StoredRequest open(String name) {
        Store.Opened found = RowView.retryingForAMinute(host, () -> store.find(name));
        if (found == null) {
            throw new StoreException.Gone(name);
        }
        return serveOpened(found);
    }

    /** Opens all requests that are open in the store, as after a crash. Those that are broken are left out, and a warning names them. */
    public List<StoredRequest> resume() {
        List<StoredRequest> resumed = new ArrayList<>();
        for (String name : RowView.retryingForAMinute(host, () -> store.news(null)).ends.keySet()) {
            try {
                resumed.add(open(name));
            } catch (StoreException.Broken logged) {
                // It was, as it was opened.
            }
        }
        return resumed;
    }

    /**
     * Begins nothing more, waits for the functions that run, and closes the store. What is open stays in the store, and other processes go on with
     * it. Those who wait here for a stage get an {@link IllegalStateException}.
     */
    @Override
    public void close() {
        lastPut = host.nanoTime() + RowView.PATIENCE;
        isStopping = true;
        boolean isInterrupted = false;
        try {
            host.shutDown();
            if (ends != null) {
                ends.drain(LAST_ENDS);
            }
        } catch (InterruptedException interrupted) {
            isInterrupted = true;
        }
        for (StoredRequest request : knownRequests()) {
            request.failAll(new IllegalStateException("the service is closed"));
        }
        try {
            store.dropBeat(session);
        } catch (StoreException silent) {
            // Others see it by its silence.
        }
        store.close();
        if (isInterrupted) {
            Thread.currentThread().interrupt();
        }
    }

    // The requests that are known here.

    private StoredRequest serveOpened(Store.Opened found) {
        try {
            StoredRequest request = requestOf(found);
            serve(request);
            return request;
        } catch (StoreException.Broken fault) {
            giveUp(found.name, null, fault);
            throw fault;
        }
    }

    /** The one object of a request that this service has. */
    private StoredRequest requestOf(Store.Opened found) {
        StoredRequest known = findKnown(found.name);
        if (known == null || known.number != found.number) {
            StoredRequest made = new StoredRequest(this, new RowView(store, found, session, host));
            StoredRequest before;
            synchronized (requests) {
                before = requests.get(found.name);
                known = before != null && before.number >= found.number ? before : made;
                putBack(known);
            }
            if (before != null && before != known) { // It was dropped, and another of its name opened.
                before.failAll(new StoreException.Gone(found.name));
            }
        }
        known.catchUp();
        return known;
    }

    /** A request that is known here, also one that was closed and that others have opened again; or null. */
    private StoredRequest findKnown(String name) {
        synchronized (requests) {
            StoredRequest known = requests.get(name);
            WeakReference<StoredRequest> gone = known == null ? leftRequests.remove(name) : null;
            known = gone == null ? known : gone.get();
            if (gone != null && known != null) {
                putBack(known);
            }
            return known;
        }
    }

    /** One that is known here, or was until it was closed; or null. */
    private StoredRequest findKnownOrLeft(String name) {
        synchronized (requests) {
            WeakReference<StoredRequest> gone = leftRequests.get(name);
            return requests.getOrDefault(name, gone == null ? null : gone.get());
        }
    }

    private List<StoredRequest> knownRequests() {
        synchronized (requests) {
            List<StoredRequest> known = new ArrayList<>(requests.values());
            leftRequests.values().forEach(it -> {
                StoredRequest request = it.get();
                if (request != null) {
                    known.add(request);
                }
            });
            return known;
        }
    }

    /** Goes on with a request, unless there is another of its name by now. */
    void keep(StoredRequest request) {
        synchronized (requests) {
            if (requests.getOrDefault(request.name, request) == request) {
                putBack(request);
            }
        }
    }

    private void putBack(StoredRequest request) {
        requests.put(request.name, request);
        leftRequests.remove(request.name);
        request.keptAt = ++keepCount;
    }

    /** Leaves a broken request alone. Others go on. */
    private void giveUp(String name, StoredRequest request, StoreException.Broken fault) {
        boolean isDropped = fault instanceof StoreException.Gone; // (another of its name may be opened)
        host.warnBroken(fault.getMessage(), isDropped);
        if (!isDropped) {
            brokenNames.add(name);
        }
        synchronized (requests) {
            if (request == null || requests.get(name) == request) {
                requests.remove(name);
            }
        }
        if (request != null) {
            request.failAll(fault);
        }
    }

    /** Has a thread read what others have put to a request, and work on it. */
    void serve(StoredRequest request) {
        request.isStale = true;
        queueWork(request);
    }

    /** Has a thread work on a request if there is work in it by what is known here. */
    void serveKnown(StoredRequest request) {
        if (request.withView(this::hasWork)) {
            queueWork(request);
        }
    }

    private void queueWork(StoredRequest request) {
        if (!isStopping && request.isQueued.compareAndSet(false, true) && !submit(Host.Job.WORK, request.name, request, () -> workOn(request))) {
            request.isQueued.set(false);
        }
    }

    /** Hands a job to a thread, and says whether one takes it. */
    private boolean submit(Host.Job job, String name, StoredRequest request, Runnable act) {
        jobs.incrementAndGet();
        try {
            host.execute(job, name, () -> runGuarded(name, request, act));
            return true;
        } catch (RejectedExecutionException | OutOfMemoryError noThread) {
            jobs.decrementAndGet();
            if (!isStopping) {
                host.warn("request \"" + name + "\"", name, noThread);
            }
            return false;
        }
    }

    private void runGuarded(String name, StoredRequest request, Runnable act) {
        try {
            act.run();
        } catch (StoreException.Broken fault) {
            giveUp(name, request, fault);
        } catch (Throwable fault) {
            host.rethrowIfRunEnds(fault);
            host.warn("request \"" + name + "\"", name, fault);
        } finally {
            jobs.decrementAndGet();
        }
    }

    // The pump: news, sessions that are gone, timers.

    private void runPump() {
        while (!isStopping) {
            try {
                runRound();
                store.awaitChange(Math.min(LONGEST_PAUSE, Math.max(1, lease / 5_000_000)));
            } catch (InterruptedException interrupted) {
                return;
            } catch (RuntimeException | Error fault) {
                if (!isStopping) {
                    host.warn("the store", "", fault);
                    pause();
                }
            }
        }
        beatToTheEnd();
    }

    /** Beats while functions run that the end waits for, so that others don't take this session for gone. */
    private void beatToTheEnd() {
        while (jobs.get() > 0) {
            try {
                host.sleep(Math.min(LONGEST_PAUSE, Math.max(1, lease / 5_000_000)));
                beat();
            } catch (InterruptedException interrupted) {
                return;
            } catch (RuntimeException | Error silent) {
                // It is tried again.
            }
        }
    }

    void runRound() {
        boolean looks = beat();
        long now = host.nanoTime();
        if (now - nextLook >= 0) {
            nextLook = now + BETWEEN_TIMERS * 1_000_000;
            lookForTimers();
        }
        if (now - nextShow >= 0) {
            nextShow = now + LONGEST_PAUSE * 1_000_000;
            showUnshown();
        }
        newsMark = lookForNews(looks, newsMark);
    }

    /** Puts a sign of life and reads those of others, if it is time to; whether it was. */
    boolean beat() {
        long now = host.nanoTime();
        if (now - nextBeat < 0) {
            return false;
        }
        nextBeat = now + lease / 5;
        try {
            store.beat(session);
        } catch (StoreException silent) {
            sessions.forgetAll();
            throw silent;
        }
        if (!isNamed) {
            store.nameSession(session, "java " + processNumber());
            isNamed = true;
        }
        sessions.readBeats(store);
        return true;
    }

    private static String processNumber() {
        try {
            return new java.io.File("/proc/self").getCanonicalFile().getName(); // (Java 8 has no other way)
        } catch (java.io.IOException unknown) {
            return "process";
        }
    }

    private Object lookForNews(boolean looks, Object mark) {
        long before;
        synchronized (requests) {
            before = keepCount; // (what is opened meanwhile, or again, isn't in the store's answer)
        }
        Store.News news = store.news(looks ? null : mark);
        if (looks) {
            List<StoredRequest> closed = new ArrayList<>();
            synchronized (requests) {
                requests.values().stream().filter(it -> !news.ends.containsKey(it.name)).forEach(closed::add);
            }
            closed.forEach(it -> queueLetGo(it, before));
        }
        news.ends.forEach((name, end) -> {
            if (end < 0) {
                queueLetGo(findKnownOrLeft(name), before);
                return;
            }
            StoredRequest request = findWorkedOn(name);
            if (request != null && (end > request.wordCount || (looks || end == 0) && needsWork(request))) {
                serve(request);
            }
            beat(); // (rows that are read for the first time may be many and long)
        });
        return news.mark;
    }

    /** Takes a word of another session as a sign of its life. */
    void noteSession(long other) {
        if (host.takesWordsAsBeats()) {
            sessions.noteWord(other);
        }
    }

    /** Notes that others take this session for gone: they have failed a stage that runs here. */
    void noteTakenForGone() {
        isTakenForGone = true;
    }

    /** Puts a sign of life where others took this session for gone. Before that it claims nothing, since they would fail that, too. */
    private void comeBack() {
        if (isTakenForGone) {
            store.beat(session);
            isTakenForGone = false;
        }
    }

    /** Has a thread read the payloads of a request again soon, and show its stages. */
    void showLater(StoredRequest request) {
        unshown.add(request);
    }

    private void showUnshown() {
        for (StoredRequest request : unshown) {
            unshown.remove(request);
            if (!submit(Host.Job.WORK, request.name, request, request::showSettled)) {
                unshown.add(request);
            }
        }
    }

    private void pause() {
        try {
            host.sleep(LONGEST_PAUSE);
        } catch (InterruptedException interrupted) {
            Thread.currentThread().interrupt();
        }
    }

    /** A request of the store that this service works on, or null. */
    private StoredRequest findWorkedOn(String name) {
        StoredRequest known = findKnown(name);
        if (known != null || !takesAll || brokenNames.contains(name)) {
            return known;
        }
        Store.Opened found = store.find(name);
        if (found == null) {
            return null;
        }
        try {
            StoredRequest request = requestOf(found);
            if (needsWork(request)) { // (the store tells only of what comes later)
                queueWork(request);
            }
            return request;
        } catch (StoreException.Broken fault) {
            giveUp(name, null, fault);
            return null;
        }
    }

    /** Whether there is work in a request without a new word. Where another thread has the request, that one looks. */
    private boolean needsWork(StoredRequest request) {
        return request.withViewIfFree(view -> hasWork(view) || view.openClaims().values().stream().anyMatch(this::isGone), false);
    }

    /** Whether there is work in a request by what is known here, but for the stages of sessions that are gone. */
    private boolean hasWork(RowView view) {
        return view.hasWork(threads > 0) || isFinished(view);
    }

    private boolean isGone(long other) {
        return other != session && sessions.isGone(other);
    }

    /** Whether it is a flow's request, and no work is left. */
    private boolean isFinished(RowView view) {
        return view.isPlanned() && view.isDone(this::isGone);
    }

    private void lookForTimers() {
        for (Store.Timer timer : store.dueTimers(store.now())) {
            boolean isIts;
            synchronized (requests) {
                isIts = takesAll && !brokenNames.contains(timer.request) || requests.containsKey(timer.request);
            }
            String one = timerName(timer);
            if (isIts && firingTimers.add(one) && !submit(Host.Job.FIRE, timer.request, null, () -> fire(timer, one))) {
                firingTimers.remove(one);
            }
        }
    }

    private static String timerName(Store.Timer timer) {
        return timer.request + " " + timer.stage;
    }

    private void fire(Store.Timer timer, String one) {
        try {
            StoredRequest request = findWorkedOn(timer.request);
            if (request != null && (timer.number == 0 || timer.number == request.number)) {
                request.catchUp(); // (a timer is set behind the word of its stage)
                request.act(view -> timer.stage >= view.stageCount() || view.isSettled(timer.stage) ? Collections.emptyList()
                        : Collections.singletonList(timerWord(timer)));
                serveKnown(request);
            }
            store.dropTimer(timer);
        } finally {
            firingTimers.remove(one);
        }
    }

    private static RowView.WantedWord timerWord(Store.Timer timer) {
        char kind = timer.payload.length == 0 ? 'N' : (char) timer.payload[0];
        byte[] what = kind == 'N' ? null : Arrays.copyOfRange(timer.payload, 1, timer.payload.length);
        long word = kind == 'E' ? Words.failAs(0, timer.stage, Words.TIMED_OUT, 0) : Words.complete(0, timer.stage, Words.NIL);
        return new RowView.WantedWord(word, what);
    }

    /** Has a thread forget a request that is closed. */
    private void queueLetGo(StoredRequest request, long before) {
        if (request != null && request.isLeaving.compareAndSet(false, true)
                && !submit(Host.Job.LET_GO, request.name, request, () -> letGo(request, before))) {
            request.isLeaving.set(false);
        }
    }

    /** Forgets a closed request, once its stages are shown, unless it was asked for again since the store was read. */
    private void letGo(StoredRequest request, long before) {
        try {
            request.catchUp();
            synchronized (requests) {
                if (request.keptAt <= before && requests.get(request.name) == request) {
                    requests.remove(request.name);
                    leftRequests.values().removeIf(it -> it.get() == null);
                    leftRequests.put(request.name, new WeakReference<>(request));
                }
            }
        } finally {
            request.isLeaving.set(false);
        }
    }

    // Work.

    /** A stage that this session has claimed, with its function and arguments, or with the exception that it ends in without a call. */
    private static final class ClaimedTask {
        final int stage;
        /** The stage whose function is called: the same, or the one that this stage tries again. */
        final int first;
        final String name;
        final Functions.Registered function;
        final List<Object> args;
        /** Arguments by name, the context, and the promise for the result of a composing function, or -1. */
        final Map<String, Object> namedArgs, context;
        final int promise;
        final RemoteException exception;

        ClaimedTask(int stage, int first, Functions.Registered function, List<Object> args, StoredPlan.StageSpec spec, int to,
                Map<String, Object> carried) {
            this.stage = stage;
            this.first = first;
            name = spec.function;
            this.function = function;
            this.args = args;
            namedArgs = spec.namedArgs;
            this.promise = to;
            this.context = carried;
            exception = null;
        }

        ClaimedTask(int stage, RemoteException ended) {
            this.stage = stage;
            this.exception = ended;
            first = promise = -1;
            name = null;
            function = null;
            args = null;
            namedArgs = context = null;
        }
    }

    private void workOn(StoredRequest request) {
        request.isQueued.set(false);
        if (request.isStale) {
            request.isStale = false;
            request.catchUp();
        }
        failAbandoned(request);
        putRelays(request);
        do {
            for (ClaimedTask task = nextTask(request); task != null;) {
                boolean isWithin = task.exception == null && task.function.takes == Functions.Takes.CONNECTION;
                ClaimedTask next = isWithin ? runInTransaction(request, task) : finishAndClaim(request, callFunction(request, task, null));
                task = next == null ? nextTask(request) : next;
            }
        } while (putRelays(request)); // (which may make stages ready)
        int words = request.withView(view -> isFinished(view) ? view.wordCount() : -1); // (another thread may be reading a word)
        if (words >= 0 && store.end(request.name, request.number, words)) {
            tellEnd(request);
        }
    }

    /** Hands the history of a request that this service has closed to the hook. */
    void tellEnd(StoredRequest request) {
        if (ends != null) {
            RowView.Facts facts = request.withView(RowView::facts);
            ends.tell(() -> facts.history(Describe.ALL), contexts == null ? null : act -> contexts.restore(facts.context()).execute(act));
        }
    }

    /** Fails the stages whose session is gone. If that session lives, the row decides who was first. */
    private void failAbandoned(StoredRequest request) {
        request.withView(RowView::openClaims).forEach((stage, owner) -> {
            if (isGone(owner)) {
                String text = "the worker that ran " + request.withView(view -> view.spec(stage).name) + " is gone, and it may have run";
                byte[] payload = Json.write(new RemoteException(RemoteException.ABANDONED, text).toMap());
                request.act(view -> {
                    RowView.WantedWord wanted = view.abandonWord(owner, stage, payload);
                    return wanted == null ? Collections.emptyList() : Collections.singletonList(wanted);
                });
            }
        });
    }

    /** Puts the words that are due of relays, and says whether there were any. */
    private static boolean putRelays(StoredRequest request) {
        for (int put = 0;; put++) {
            boolean isLeft = !request.act(view -> {
                RowView.WantedWord wanted = view.relayWord();
                return wanted == null ? Collections.emptyList() : Collections.singletonList(wanted);
            }).isEmpty();
            if (!isLeft) {
                return put > 0;
            }
        }
    }

    /** The next stage to run: one that this session has claimed already, or else a new claim; or null. */
    private ClaimedTask nextTask(StoredRequest request) {
        while (true) {
            Map.Entry<Integer, NativeRow.Reply> found = isStopping ? null : request.withView(view -> view.foundClaims.pollFirstEntry());
            if (found == null) {
                return finishAndClaim(request, null);
            }
            int stage = found.getKey();
            try {
                boolean isOpen = request.withView(view -> view.hasClaim(stage) && !view.isSettled(stage));
                ClaimedTask task = isOpen ? newTask(request, stage, found.getValue())
                        : finishAndClaim(request, RowView.Finish.withValue(stage, null)); // (late: it does nothing)
                if (task != null) {
                    return task;
                }
            } catch (RuntimeException | Error fault) {
                request.withView(view -> view.foundClaims.put(stage, found.getValue())); // It is tried again later.
                throw fault;
            }
        }
    }

    /**
     * Puts a finish, and with it the claim of the next stage, if there is one; the claimed stage. While the store is away or takes nothing, a finish
     * is put again and again, since its function has run. If the store refuses a value twice, while it takes something else, the stage fails.
     */
    private ClaimedTask finishAndClaim(StoredRequest request, RowView.Finish finish) {
        RowView.Finish current = finish;
        int refused = 0; // times in a row that the value was, while the store took something else
        List<Integer> chosen = new ArrayList<>();
        if (finish == null) {
            comeBack();
        }
        while (true) {
            try {
                RowView.Finish put = current;
                List<RowView.DoneEntry> done = request.act(view -> {
                    List<RowView.WantedWord> wanted = new ArrayList<>();
                    RowView.WantedWord finished = put == null ? null : view.finishWord(put);
                    if (finished != null) {
                        wanted.add(finished);
                    }
                    chosen.clear();
                    chosen.addAll(chooseClaims(view, put));
                    if (!chosen.isEmpty()) {
                        wanted.add(new RowView.WantedWord(Words.claim(0, chosen.get(0)), null));
                    }
                    return wanted;
                });
                return taskOfClaim(request, chosen, done);
            } catch (StoreException.Broken fault) {
                throw fault;
            } catch (StoreException fault) {
                if (finish == null || isStopping && host.nanoTime() - lastPut > 0) {
                    throw fault;
                }
                host.warn(request + ": " + fault.getMessage(), request.name, null);
                if (!(fault instanceof StoreException.Unknown)) {
                    refused = current == finish && canBeat() ? refused + 1 : 0;
                    current = refused > 1 ? storeErrorFinish(finish, fault) : finish;
                    if (refused == 0) {
                        pause();
                    }
                }
            }
        }
    }

    /** Whether the store can write now. If it can't, a refusal isn't the value's fault. */
    private boolean canBeat() {
        try {
            store.beat(session);
            return true;
        } catch (StoreException cannot) {
            return false;
        }
    }

    private static RowView.Finish storeErrorFinish(RowView.Finish finish, StoreException fault) {
        return RowView.Finish.withException(finish.stage, Json.write(new RemoteException("StoreError", String.valueOf(fault.getMessage())).toMap()));
    }

    private ClaimedTask taskOfClaim(StoredRequest request, List<Integer> chosen, List<RowView.DoneEntry> done) {
        if (chosen.size() > 1 || isTakenForGone) {
            queueWork(request);
        }
        RowView.DoneEntry last = done.isEmpty() ? null : done.get(done.size() - 1);
        if (chosen.isEmpty() || last == null || last.reply.answer != 0) {
            return null;
        }
        int stage = chosen.get(0);
        try {
            return newTask(request, stage, last.reply);
        } catch (RuntimeException | Error fault) {
            request.withView(view -> view.foundClaims.put(stage, last.reply));
            throw fault;
        }
    }

    /** Up to two stages that this session could claim: those that are ready, or that the finish makes ready. */
    private List<Integer> chooseClaims(RowView view, RowView.Finish finish) {
        if (isStopping || threads == 0 || isTakenForGone) {
            return Collections.emptyList();
        }
        List<Integer> chosen = new ArrayList<>();
        for (int stage = view.nextClaim(finish, 0); stage >= 0 && chosen.size() < 2; stage = view.nextClaim(finish, stage + 1)) {
            if (function(view, stage) != null) {
                chosen.add(stage);
            }
        }
        return chosen;
    }

    /** The function of a stage, or null where none is registered here that could be called: others may have it. */
    private Functions.Registered function(RowView view, int stage) {
        StoredPlan.StageSpec spec = calledSpec(view, stage);
        Functions.Registered function = spec.function == null ? null : functions.find(spec.function, spec.version);
        if (function != null && function.takes == Functions.Takes.ELSEWHERE) {
            return null;
        }
        if (function != null && !isFit(function.takes, view, stage, spec)) {
            function = null;
        }
        if (function == null && unknownFunctions.add(spec.function + " " + spec.version)) {
            host.warn("request \"" + view.opened.name + "\", stage " + stage + ": function " + spec.function + ", version " + spec.version
                    + ", isn't known here", "", null);
        }
        return function;
    }

    /** Whether what a function takes is what a stage has that calls it. */
    private boolean isFit(Functions.Takes takes, RowView view, int stage, StoredPlan.StageSpec spec) {
        boolean hasAll = spec.namedArgs.isEmpty() || takes == Functions.Takes.NAMED;
        boolean composes = takes == Functions.Takes.REQUEST;
        return hasAll && composes == view.form(stage).composes && (!composes || view.spec(stage).promise >= 0)
                && (takes != Functions.Takes.CONNECTION || store.isTransactional());
    }

    /** The spec of the stage whose function a stage calls: its own, or that of the stage that it tries again. */
    private static StoredPlan.StageSpec calledSpec(RowView view, int stage) {
        int first = view.retriedStage(stage);
        return view.spec(first < 0 ? stage : first);
    }

    private ClaimedTask newTask(StoredRequest request, int stage, NativeRow.Reply reply) {
        return request.withView(view -> {
            StoredPlan.StageSpec spec = calledSpec(view, stage);
            List<Object> args = arguments(view, stage, reply);
            int again = view.retriedStage(stage);
            if (again >= 0) {
                RemoteException thrown = exceptionToPassOn(view, again, reply, (RemoteException) args.get(0));
                if (thrown != null) {
                    return new ClaimedTask(stage, thrown);
                }
                args = argumentsAgain(view, again);
            }
            boolean isGiven = spec.args != null && !spec.args.isEmpty();
            return new ClaimedTask(stage, again < 0 ? stage : again, function(view, stage), isGiven ? new ArrayList<>(spec.args) : args, spec,
                    view.spec(stage).promise, view.context(stage));
        });
    }

    /**
     * The exception that a further try passes on, or null where it calls the function of the first stage, whose process is gone. A wrapped exception
     * is a source's, and stages behind an abandoned stage fail, too. A try whose process is gone is done once more.
     */
    private static RemoteException exceptionToPassOn(RowView view, int first, NativeRow.Reply reply, RemoteException thrown) {
        if (!isLost(reply.source, thrown)) {
            return thrown;
        }
        Throwable fault = view.isSettled(first) ? view.fault(view.outcome(first)) : null;
        return fault == null || isLost(view.outcome(first), toRemote(fault)) ? null : toRemote(fault);
    }

    private static boolean isLost(NativeRow.Outcome outcome, RemoteException thrown) {
        return !outcome.isWrapped && thrown.kind().equals(RemoteException.ABANDONED);
    }

    /** The arguments of a function, by the reply to its claim. */
    private static List<Object> arguments(RowView view, int stage, NativeRow.Reply reply) {
        switch (reply.arguments) {
            case Layout.NO_ARGS:
                return Collections.emptyList();
            case Layout.ONE:
                return Collections.singletonList(view.value(reply.first));
            case Layout.TWO:
                return Arrays.asList(view.value(reply.first), view.value(reply.second));
            default:
                return handlerArguments(view, view.form(stage), reply.source);
        }
    }

    /** The arguments of a function that handles its source's outcome: a value and an exception, or the exception alone. */
    private static List<Object> handlerArguments(RowView view, Form form, NativeRow.Outcome outcome) {
        Throwable fault = view.fault(outcome);
        RemoteException thrown = fault == null ? null : toRemote(fault);
        return form == Form.EXCEPTIONALLY || form == Form.EXCEPTIONALLY_COMPOSE ? Collections.singletonList(thrown)
                : Arrays.asList(fault == null ? view.value(outcome.place) : null, thrown);
    }

    private static RemoteException toRemote(Throwable fault) {
        String text = fault.getMessage() == null ? "" : fault.getMessage();
        return fault instanceof RemoteException ? (RemoteException) fault : fault instanceof TimeoutException ? new RemoteException("TimeoutError", text)
                : new RemoteException(fault instanceof IllegalStateException && !(fault instanceof java.util.concurrent.CancellationException)
                        ? "BadAnswer" : "CancelledError", text);
    }

    /**
     * The arguments of a stage's first call. If the stage was settled by hand before its function was called, they are what its sources hold by
     * now.
     */
    private static List<Object> argumentsAgain(RowView view, int stage) {
        NativeRow.Reply granted = view.claimReplies.get(stage);
        if (granted != null) {
            return arguments(view, stage, granted);
        }
        Form form = view.form(stage);
        int[] of = view.sources(stage);
        if (form.handles) { // (of an open source it is a bad answer, as in Python)
            return handlerArguments(view, form, view.isSettled(of[0]) ? view.outcome(of[0]) : NativeRow.Outcome.PENDING);
        }
        List<Object> args = new ArrayList<>();
        for (int source : form == Form.APPLY_EITHER ? new int[] {hasValue(view, of[0]) || !hasValue(view, of[1]) ? of[0] : of[1]} : of) {
            args.add(hasValue(view, source) ? view.value(view.outcome(source).place) : null);
        }
        return args;
    }

    private static boolean hasValue(RowView view, int stage) {
        return view.isSettled(stage) && view.outcome(stage).isValue();
    }

    private RowView.Finish callFunction(StoredRequest request, ClaimedTask task, Connection connection) {
        try {
            if (task.exception != null) {
                throw task.exception;
            }
            Object value = callComposing(request, task, connection);
            if (task.function.takes == Functions.Takes.REQUEST) {
                if (!(value instanceof StoredStage) || ((StoredStage) value).request != request) {
                    throw new IllegalArgumentException("a function that composes has to give a stage of the request");
                }
                byte[] payload = Json.write(Collections.singletonMap("stage", ((StoredStage) value).number));
                return RowView.Finish.withLink(task.stage, payload, task.promise);
            }
            return RowView.Finish.withValue(task.stage, value == null ? null : Json.write(value));
        } catch (Throwable thrown) { // (also an Error: the stage ends in it, and the thread goes on)
            host.rethrowIfRunEnds(thrown);
            return RowView.Finish.withException(task.stage, Json.write(RemoteException.fromThrowable(thrown).toMap()));
        }
    }

    /** Calls a function. One that composes attaches stages meanwhile, on this thread. */
    private Object callComposing(StoredRequest request, ClaimedTask task, Connection connection) throws Throwable {
        if (task.function.takes == Functions.Takes.REQUEST) {
            request.beginComposing(task.stage, task.first);
        }
        try {
            return host.call(task.name, () -> call(task, new Functions.Given(request, connection, task.args, task.namedArgs)));
        } finally {
            request.endComposing();
        }
    }

    /** Calls a function within its context. */
    private Object call(ClaimedTask task, Functions.Given given) throws Throwable {
        if (contexts == null) {
            return task.function.call.call(given);
        }
        Object[] value = new Object[1];
        Throwable[] thrown = {new IllegalStateException("the context has not called the function at once")};
        contexts.restore(task.context).execute(() -> {
            try {
                value[0] = task.function.call.call(given);
                thrown[0] = null;
            } catch (Throwable fault) {
                thrown[0] = fault;
            }
        });
        if (thrown[0] != null) {
            throw thrown[0];
        }
        return value[0];
    }

    /** The finish of a transaction whose place was taken. */
    private static final RowView.Finish LOST = RowView.Finish.withValue(-1, null);

    /**
     * Runs a transactional function: its effect and the word of its finish stand or fall together. Where the finish's place was taken meanwhile, or
     * the connection is lost, all of it is done again, unless it stands. The next claim is put once the transaction has ended.
     */
    private ClaimedTask runInTransaction(StoredRequest request, ClaimedTask task) {
        while (true) {
            RowView.Finish finish = LOST;
            try {
                finish = request.runTransacting(() -> attempt(request, task));
            } catch (StoreException.Broken fault) {
                throw fault;
            } catch (RuntimeException | Error fault) { // The store's.
                host.rethrowIfRunEnds(fault);
                if (isStopping) {
                    throw fault;
                }
                host.warn(request + ", stage " + task.stage + ": " + fault.getMessage(), request.name, null);
                pause();
            }
            if (finish != LOST) {
                return finishAndClaim(request, finish);
            }
        }
    }

    /** Tries once, and throws what the store does. A function that leaves a connection to which no word can be put ends in what that threw. */
    private RowView.Finish attempt(StoredRequest request, ClaimedTask task) {
        try (Store.Transaction transaction = store.transaction()) {
            try {
                return tryInTransaction(request, task, transaction);
            } catch (StoreException.Broken | StoreException.Unknown fault) {
                throw fault;
            } catch (RuntimeException | Error fault) {
                host.rethrowIfRunEnds(fault);
                return RowView.Finish.withException(task.stage, Json.write(RemoteException.fromThrowable(fault).toMap()));
            }
        }
    }

    /**
     * Calls a function in a transaction and puts its finish there. It gives the finish that is still to be put, or null, or {@link #LOST} where all
     * has to be done again. Words of others are read first: where the stage isn't this session's any more, the function isn't called.
     */
    private RowView.Finish tryInTransaction(StoredRequest request, ClaimedTask task, Store.Transaction transaction) {
        request.read();
        if (!request.withView(view -> view.hasClaim(task.stage))) {
            return null; // It stands.
        }
        if (request.withView(view -> view.isSettled(task.stage))) {
            return RowView.Finish.withValue(task.stage, null); // Late: it does nothing.
        }
        RowView.Finish finish = callFunction(request, task, transaction.connection());
        if (finish.hasException()) {
            if (transaction.isAway()) {
                throw new StoreException.Unknown("the connection was lost", null);
            }
            return finish;
        }
        return request.actWithin(transaction, finish) ? null : LOST;
    }

    // For a search over a store.

    boolean isStopped() {
        return isStopping;
    }

    boolean isBroken(String name) {
        return brokenNames.contains(name);
    }

    boolean isFiring(Store.Timer timer) {
        return firingTimers.contains(timerName(timer));
    }

    boolean knowsFunction(RowView view, int stage) {
        return function(view, stage) != null;
    }

    StoredRequest findServed(String name) {
        synchronized (requests) {
            return requests.get(name);
        }
    }

    /**
     * Which sessions are gone, by this process's own clock: those without a sign of life, a beat or a word, for a lease in which the store answered.
     * Time counts only from an answer of the store to the next question, and for half a lease at most: in a longer pause this process, or the
     * machine, may have stood still, and others, too.
     */
    static final class Sessions {
        private static final long LONG_GONE = 100; // leases
        private final long lease;
        private final Host host;
        /** By session, how often it beat, or -1 where that isn't known, and when its last sign of life came. */
        private final Map<Long, long[]> signs = new HashMap<>();
        private long time, answered;
        /** Whether the last question was answered. */
        private boolean isAnswered;

        Sessions(long lease, Host host) {
            this.lease = lease;
            this.host = host;
        }

        /** Reads all beats, and drops those of sessions that are long gone. {@link #isGone} doesn't wait for the store meanwhile. */
        void readBeats(Store store) {
            beginQuestion();
            Map<Long, Long> beats;
            try {
                beats = store.beats();
            } catch (StoreException.Unknown silent) {
                forgetAll();
                return;
            }
            takeBeats(beats).forEach(store::dropBeat);
        }

        /** The time that has counted by now. */
        private long countedTime() {
            return isAnswered ? time + Math.min(host.nanoTime() - answered, lease / 2) : time;
        }

        private synchronized void beginQuestion() {
            time = countedTime();
            isAnswered = false;
        }

        /** While the store is away nobody can beat. */
        synchronized void forgetAll() {
            isAnswered = false;
            signs.clear();
        }

        /** Takes these beats in, and gives the sessions that are long gone. */
        private synchronized List<Long> takeBeats(Map<Long, Long> beats) {
            isAnswered = true;
            answered = host.nanoTime();
            beats.forEach((session, count) -> {
                long[] known = signs.get(session);
                if (known == null || known[0] != count) {
                    signs.put(session, new long[] {count, time});
                }
            });
            List<Long> longGone = new ArrayList<>();
            signs.forEach((session, known) -> {
                if (known[0] >= 0 && known[1] < time - LONG_GONE * lease) {
                    longGone.add(session);
                }
            });
            signs.keySet().removeAll(longGone);
            return longGone;
        }

        /** Notes that a session has put a word. */
        synchronized void noteWord(long session) {
            signs.computeIfAbsent(session, it -> new long[] {-1, 0})[1] = countedTime();
        }

        /** Whether no sign of life of a session came for so long. One that never beat counts from now on. */
        synchronized boolean isGone(long session) {
            return time - signs.computeIfAbsent(session, it -> new long[] {-1, countedTime()})[1] > lease;
        }
    }
}
