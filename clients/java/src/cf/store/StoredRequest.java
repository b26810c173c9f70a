package cf.store;

import cf.internal.Form;
import cf.internal.Full;
import cf.internal.Host;
import cf.internal.Layout;
import cf.internal.Words;
import cf.service.Describe;
import cf.service.RequestFullException;
import java.util.ArrayList;
import java.util.Arrays;
import java.util.Collections;
import java.util.HashMap;
import java.util.HashSet;
import java.util.LinkedHashMap;
import java.util.LinkedHashSet;
import java.util.List;
import java.util.Map;
import java.util.Set;
import java.util.concurrent.ConcurrentHashMap;
import java.util.concurrent.atomic.AtomicBoolean;
import java.util.concurrent.locks.Lock;
import java.util.function.Function;
import java.util.function.Supplier;

/**
 * A request in a store: what happened to it stands there as a row of words, so it outlives its process, and processes share it.
 * {@link StoreService} gives one. Any thread may use it. Each call that changes something is in the store when it returns, and throws
 *
 * <ul>
 * <li>{@link StoreException.Unknown} where the store didn't answer for a minute: what was asked may stand or not;
 * <li>{@link StoreException.Broken} where the row can't be gone on with, or the request was dropped;
 * <li>{@link RequestFullException} where there would be more than 4,096 stages;
 * <li>{@code IllegalArgumentException} where a function isn't registered, a value isn't JSON's, or a stage is another request's.
 * </ul>
 */
public final class StoredRequest {
    /** How long a thread goes on to ask for payloads where the store is silent, in nanoseconds. */
    private static final long LONGEST_SHOW = 1_000_000_000L;

    final String name;
    final long number;
    final AtomicBoolean isQueued = new AtomicBoolean();
    /** Whether a thread is to forget it, since it was closed in the store. */
    final AtomicBoolean isLeaving = new AtomicBoolean();
    /** When it was asked for last, by the service's count; the lock of the service's requests guards it. */
    long keptAt;
    /** Whether others may have put words that aren't read. */
    volatile boolean isStale;
    volatile int wordCount;
    private final StoreService service;
    private final RowView view;
    /** A thread that puts takes the first one, and then the second one, which guards the view. */
    private final Lock writes, lock;
    /** The threads that run a transactional function of it. */
    private final Set<Thread> transactingThreads = ConcurrentHashMap.newKeySet();
    /** By the threads that run them, the stages whose functions attach stages to it. */
    private final Map<Thread, Composing> composingByThread = new ConcurrentHashMap<>();
    /** The stages that were asked for; of these, the open ones; and of those, the settled ones that aren't shown yet. */
    private final Map<Integer, StoredStage> stages = new HashMap<>();
    private final Set<StoredStage> open = new LinkedHashSet<>(), unshown = new LinkedHashSet<>();
    /** Why this service doesn't work on it any more, or null. */
    private Throwable failure;

    StoredRequest(StoreService service, RowView view) {
        this.service = service;
        this.view = view;
        writes = service.host.newLock();
        lock = service.host.newLock();
        name = view.opened.name;
        number = view.opened.number;
        view.freeWith(this);
        view.onOtherSession = service::noteSession;
        view.onTakenForGone = service::noteTakenForGone;
    }

    /** The request's name, by which other processes find it. */
    public String name() {
        return name;
    }

    /**
     * Attaches a stage that calls a registered function, in its latest version, with arguments of JSON's. Any process that works on the request runs
     * it. If that process dies, the stage fails with a {@link RemoteException} of the kind {@link RemoteException#ABANDONED}, and the function may
     * have run; {@link StoredStage#again} plans further tries.
     */
    public StoredStage supply(String function, Object... args) {
        return supplyNamed(function, Collections.emptyMap(), args);
    }

    /** The same, with further arguments by name, which the function has to take: see {@link Functions#byName}, and any function of Python's. */
    public StoredStage supplyNamed(String function, Map<String, ?> named, Object... args) {
        Map<String, Object> spec = service.callSpec(function, false);
        if (args.length > 0) {
            spec.put("args", Arrays.asList(args));
        }
        if (!named.isEmpty()) {
            spec.put("kwargs", named);
        }
        return attach(Form.SUPPLY, spec);
    }

    /** A stage without a function, which somebody settles, in any process. */
    public StoredStage promise(String name) {
        return attach(Form.SOURCE, namedSpec(name));
    }

    /**
     * A stage that ends once all of these are settled: with null if all have values, else as the first one in this order that has none. For n stages
     * it takes n - 1, at least one.
     */
    public StoredStage allOf(StoredStage... of) {
        return attachTree(Form.ALL_OF, "all of", StoredStage.numbers(this, of));
    }

    /** A stage that ends as the first of these that is settled, be it with an exception. For n stages it takes n - 1, at least one. */
    public StoredStage anyOf(StoredStage... of) {
        return attachTree(Form.ANY_OF, "first of", StoredStage.numbers(this, of));
    }

    /**
     * A stage that ends with the list of the values of all of these, in this order, or fails as {@link #allOf} does. For n stages it takes 2 n - 1.
     * {@code IllegalArgumentException} where none is given.
     */
    public StoredStage gather(StoredStage... of) {
        int[] row = StoredStage.numbers(this, of);
        if (row.length == 0) {
            throw new IllegalArgumentException("a list of nothing needs no stage");
        }
        for (int k = 0; k < row.length; k++) {
            row[k] = attach(Form.APPLY, gatherSpec("cf.gather"), row[k]).number;
        }
        while (row.length > 1) {
            int[] above = new int[(row.length + 1) / 2];
            for (int k = 0; k < above.length; k++) {
                above[k] = 2 * k + 1 < row.length ? attach(Form.COMBINE, gatherSpec("cf.add"), row[2 * k], row[2 * k + 1]).number : row[2 * k];
            }
            row = above;
        }
        return stage(row[0]);
    }

    private Map<String, Object> gatherSpec(String function) {
        Map<String, Object> spec = service.callSpec(function, false);
        spec.put("name", "gather");
        return spec;
    }

    /**
     * The stage of a step of the flow that the request was begun with, in any process: of a flow of the same name, whose steps up to this one have
     * the same forms, sources and names.
     *
     * @throws IllegalArgumentException it was begun with another one
     */
    public StoredStage stage(StoredFlow.Step step) {
        if (!withView(view -> view.hasSteps(step.flow(), step.number))) {
            throw new IllegalArgumentException(this + " wasn't begun with this flow " + step.flow().name + ": it has no such step "
                    + step.flow().nameOf(step));
        }
        return stage(step.number);
    }

    /** The history until now, by the row. It reads all payloads, so it takes time by the number of words. */
    public StoredHistory history() {
        return history(Describe.ALL);
    }

    /** The same, with the texts that this makes of values, and of exceptions, which are {@link RemoteException}s. */
    public StoredHistory history(Describe describe) {
        catchUp();
        return withView(RowView::facts).history(describe);
    }

    /** The stage of a number, in the order in which they were attached; null if there is none by what this process has read. */
    public StoredStage stage(int number) {
        lock.lock();
        try {
            return number < 0 || number >= view.stageCount() ? null : stageOf(number);
        } finally {
            lock.unlock();
            showSettled();
        }
    }

    /** The first stage of a name, or null. */
    public StoredStage stage(String name) {
        catchUp();
        int number = withView(view -> {
            for (int k = 0; k < view.stageCount(); k++) {
                if (view.spec(k).name.equals(name)) {
                    return k;
                }
            }
            return -1;
        });
        return stage(number);
    }

    /**
     * Cancels all stages that aren't settled, as {@link StoredStage#abandon} does: also those whose functions run, in whichever process. It begins with
     * the last one, so no function that takes exceptions ({@code handle}, {@code exceptionally}) is called for it. What is attached meanwhile isn't
     * cancelled. Each 32 stages are one put; if one of these isn't answered, the stages before it stay cancelled. A flow's request is closed once its
     * functions have ended, and {@link #end} closes another.
     */
    public void cancelAll() {
        catchUp();
        int stages = withView(RowView::stageCount);
        try {
            while (!act(view -> view.wordsThatCancel(stages)).isEmpty()) {
                // the next ones
            }
        } finally {
            service.serveKnown(this);
        }
    }

    /**
     * Closes the request: workers look at it no more, and its timers are dropped. A flow's request is closed by itself once all its stages are
     * settled. A stage that is attached opens a request again.
     */
    public void end() {
        catchUp();
        if (RowView.retryingForAMinute(service.host, () -> service.store.end(name, number, wordCount))) {
            service.tellEnd(this);
        }
    }

    @Override
    public String toString() {
        return "request \"" + name + "\"";
    }

    Host host() {
        return service.host;
    }

    int numberOf(StoredStage stage) {
        if (stage.request != this) {
            throw new IllegalArgumentException("it is a stage of another request");
        }
        return stage.number;
    }

    StoredStage attachBehind(Form form, String function, int... of) {
        return attach(form, callSpec(function, false), of);
    }

    /** The spec of a stage that calls a registered function. */
    Map<String, Object> callSpec(String function, boolean composes) {
        return service.callSpec(function, composes);
    }

    /** The spec of a stage without a function. */
    static Map<String, Object> namedSpec(String name) {
        Map<String, Object> spec = new LinkedHashMap<>();
        spec.put("name", name);
        return spec;
    }

    /** The spec of a further try of a stage, with the context of this place. */
    Map<String, Object> retrySpec(StoredStage stage) {
        Map<String, Object> spec = service.addContext(namedSpec(stage.name() + " again"));
        spec.put("again", stage.number);
        return spec;
    }

    StoredStage attach(Form form, Map<String, ?> spec, int... of) {
        Map<String, Object> all = withComposing(spec);
        byte[] payload = Json.write(all);
        return attachWith(form, of, all, view -> {
            int function = form.calls ? view.stageCount() : 0;
            return Collections.singletonList(attachWord(form, of, function, payload));
        });
    }

    private static RowView.WantedWord attachWord(Form form, int[] of, int function, byte[] payload) {
        int first = of.length > 0 ? of[0] : 0, second = of.length > 1 ? of[1] : 0;
        return new RowView.WantedWord(Words.attach(0, form, of.length, first, second, function), payload);
    }

    /** Attaches a composing stage, or a further try of one, and before it a promise, which stands for what its function gives. */
    StoredStage compose(Form form, StoredStage source, Map<String, Object> spec) {
        Map<String, Object> all = withComposing(spec);
        int[] of = {source.number};
        byte[] promise = Json.write(namedSpec("what " + spec.get("name") + " gives"));
        return attachWith(form, of, all, view -> {
            Map<String, Object> own = new LinkedHashMap<>(all);
            own.put("to", view.stageCount());
            return Arrays.asList(attachWord(Form.SOURCE, new int[0], 0, promise), attachWord(form, of, view.stageCount() + 1, Json.write(own)));
        });
    }

    /** The spec of a stage, with the composing stage whose function attaches it on this thread, if one does. */
    private Map<String, Object> withComposing(Map<String, ?> spec) {
        Map<String, Object> all = new LinkedHashMap<>(spec);
        Composing composing = composingByThread.get(Thread.currentThread());
        if (composing != null) {
            all.put("by", composing.first);
        }
        return all;
    }

    /**
     * Puts words that attach stages, and gives the last of these, which is of this form; or gives the one that an earlier try of the function has
     * attached which runs on this thread. A request that is closed in the store is opened again with that.
     */
    private StoredStage attachWith(Form form, int[] of, Map<String, Object> spec, RowView.Decision decision) {
        Composing composing = composingByThread.get(Thread.currentThread());
        int[] found = {-1};
        List<RowView.DoneEntry> done;
        try {
            done = act(view -> {
                found[0] = composing == null ? -1 : composing.findEarlier(view, form, of, spec);
                if (found[0] >= 0) {
                    return Collections.emptyList();
                }
                if (view.stageCount() + (form.composes ? 2 : 1) > 4096) {
                    throw new RequestFullException(new Full(name));
                }
                return decision.decide(view);
            }, true);
        } catch (StoreException.Unknown silent) {
            service.keep(this); // (it may stand)
            throw silent;
        } finally {
            service.serveKnown(this);
        }
        service.keep(this); // (behind that: who thought it closed before doesn't forget it)
        int number = found[0] >= 0 ? found[0] : done.get(done.size() - 1).reply.number;
        if (composing != null) {
            composing.takenStages.add(number);
        }
        return stage(number);
    }

    /** A stage of this session's whose function runs, and attaches stages. */
    private static final class Composing {
        /** The stage, and the one whose function is called: the same, or the one that it tries again. */
        final int stage, first;
        /** The stages that were attached, and those of an earlier try that were found in place of them. */
        final Set<Integer> takenStages = new HashSet<>();

        Composing(int stage, int first) {
            this.stage = stage;
            this.first = first;
        }

        /** The stage that an earlier try has attached in place of this one, or -1. It throws where the composing stage isn't this session's now. */
        int findEarlier(RowView view, Form form, int[] of, Map<String, Object> spec) {
            if (view.isSettled(stage) || !view.hasClaim(stage)) {
                throw new RemoteException(RemoteException.ABANDONED, view.spec(first).name
                        + " is settled, and its function attaches nothing any more");
            }
            return first == stage ? -1 : view.findAttached(form, of,
                    new StoredPlan.StageSpec((Map<?, ?>) Json.read(Json.write(spec)), view.stageCount()), takenStages);
        }
    }

    /** Notes that the function of a composing stage runs on this thread: the stage, and the first try of its function. */
    void beginComposing(int stage, int first) {
        composingByThread.put(Thread.currentThread(), new Composing(stage, first));
    }

    void endComposing() {
        composingByThread.remove(Thread.currentThread());
    }

    /** Attaches a tree of stages with two sources each, which ends as one stage with all of them would. */
    private StoredStage attachTree(Form form, String name, int[] of) {
        Map<String, Object> spec = namedSpec(name);
        int[] row = of;
        while (row.length > 2) {
            int[] above = new int[(row.length + 1) / 2];
            for (int k = 0; k < above.length; k++) {
                above[k] = 2 * k + 1 < row.length ? attach(form, spec, row[2 * k], row[2 * k + 1]).number : row[2 * k];
            }
            row = above;
        }
        return attach(form, spec, row);
    }

    boolean settle(long word, byte[] payload, int stage, boolean waits) {
        List<RowView.DoneEntry> done;
        try {
            done = act(view -> view.isSettled(stage) || waits && view.isClaimed(stage) ? Collections.emptyList()
                    : Collections.singletonList(new RowView.WantedWord(word, payload)));
        } finally {
            service.serveKnown(this);
        }
        if (!done.isEmpty()) {
            return done.get(0).reply.answer != 0;
        }
        return Words.kind(word) == Words.CANCEL && withView(view -> view.isSettled(stage) && view.outcome(stage).kind == Layout.CANCELLED
                && !view.outcome(stage).isWrapped);
    }

    /** Completes a flow's promises, but those that are settled; up to 32 in one put. */
    void completeAll(List<StoredFlow.Step> promises, List<byte[]> payloads) {
        for (int from = 0; from < payloads.size(); from += RowView.MOST_AT_ONCE) {
            int first = from, end = Math.min(from + RowView.MOST_AT_ONCE, payloads.size());
            act(view -> {
                List<RowView.WantedWord> wanted = new ArrayList<>();
                for (int k = first; k < end; k++) {
                    if (!view.isSettled(promises.get(k).number)) {
                        wanted.add(new RowView.WantedWord(Words.complete(0, promises.get(k).number, Words.NIL), payloads.get(k)));
                    }
                }
                return wanted;
            });
        }
        service.serveKnown(this);
    }

    StoredStage setTimer(StoredStage stage, double seconds, char kind, byte[] what) {
        if (!withView(view -> view.isSettled(stage.number))) {
            byte[] payload = new byte[what.length + 1];
            payload[0] = (byte) kind;
            System.arraycopy(what, 0, payload, 1, what.length);
            RowView.retryingForAMinute(service.host, () -> {
                service.store.setTimer(new Store.Timer(name, number, stage.number, service.store.now() + seconds, payload));
                return null;
            });
        }
        return stage;
    }

    // The view, under the lock.

    <T> T withView(Function<RowView, T> act) {
        lock.lock();
        try {
            return act.apply(view);
        } finally {
            lock.unlock();
        }
    }

    /** The same, or this answer where another thread has the view. */
    <T> T withViewIfFree(Function<RowView, T> act, T otherwise) {
        if (!lock.tryLock()) {
            return otherwise;
        }
        try {
            return act.apply(view);
        } finally {
            lock.unlock();
        }
    }

    void catchUp() {
        try {
            read();
        } finally {
            showSettled();
        }
    }

    /** Takes in the words that others have put, without showing what they settled. */
    void read() {
        lock.lock();
        try {
            view.catchUp();
        } finally {
            wordCount = view.wordCount();
            lock.unlock();
        }
    }

    List<RowView.DoneEntry> act(RowView.Decision decision) {
        return act(decision, false);
    }

    /** The same; whether these words open the request again, where it is closed. */
    private List<RowView.DoneEntry> act(RowView.Decision decision, boolean opens) {
        if (transactingThreads.contains(Thread.currentThread())) {
            throw new StoreException(this + ": its transactional function can't put to it: that takes the place of its finish");
        }
        writes.lock();
        try {
            return withViewToChange(() -> view.act(decision, opens));
        } finally {
            writes.unlock();
            showSettled();
        }
    }

    private <T> T withViewToChange(Supplier<T> act) {
        lock.lock();
        try {
            return act.get();
        } finally {
            wordCount = view.wordCount();
            lock.unlock();
        }
    }

    /**
     * Acts while a transactional function runs. Where the store lets nobody else put meanwhile, this process's threads wait here, and not in the
     * store with the lock of the request, which the function's finish needs.
     */
    <T> T runTransacting(Supplier<T> act) {
        boolean locksOut = service.store.locksOutOthers();
        if (locksOut) {
            writes.lock();
        }
        transactingThreads.add(Thread.currentThread());
        try {
            return act.get();
        } finally {
            transactingThreads.remove(Thread.currentThread());
            if (locksOut) {
                writes.unlock();
            }
            showSettled();
        }
    }

    /** Puts a finish within a transaction, and says whether that stands. The stages that it settled aren't shown yet. */
    boolean actWithin(Store.Transaction transaction, RowView.Finish finish) {
        return withViewToChange(() -> {
            RowView.WantedWord wanted = view.isSettled(finish.stage) ? null : view.finishWord(finish);
            return wanted != null && view.actWithin(transaction, wanted);
        });
    }

    private StoredStage stageOf(int number) {
        StoredStage stage = stages.get(number);
        if (stage == null) {
            stage = new StoredStage(this, number);
            stages.put(number, stage);
            if (view.isSettled(number)) {
                open.add(stage);
                unshown.add(stage);
            } else if (failure == null) {
                open.add(stage);
            } else {
                stage.future.completeExceptionally(failure);
            }
        }
        return stage;
    }

    /**
     * Completes the futures of stages that are settled by now. It reads their payloads and wakes the waiters without the lock. A thread of the
     * service soon reads the payloads that can't be read now.
     */
    void showSettled() {
        Map<StoredStage, RowView.Ending> ends = endingsToShow();
        if (ends.isEmpty()) {
            return;
        }
        long until = service.host.nanoTime() + LONGEST_SHOW;
        boolean areShown = false;
        try {
            boolean are = true;
            for (Map.Entry<StoredStage, RowView.Ending> each : ends.entrySet()) {
                are &= showStage(each.getKey(), each.getValue());
                if (!are && service.host.nanoTime() - until > 0) {
                    return;
                }
            }
            areShown = are;
        } finally {
            if (!areShown) {
                service.showLater(this);
            }
        }
    }

    /** Completes the future of a stage, and says whether its payload could be read, by one question. */
    private boolean showStage(StoredStage stage, RowView.Ending ended) {
        try {
            Runnable tells = wakeAction(stage, ended);
            if (takeUnshown(stage)) { // (else another thread tells it)
                tells.run();
            }
            return true;
        } catch (StoreException.Unknown silent) {
            Throwable never = withView(view -> {
                if (failure == null && unshown.remove(stage)) {
                    unshown.add(stage); // (others come first then)
                }
                return failure;
            });
            return never != null && takeUnshown(stage) && stage.future.completeExceptionally(never);
        }
    }

    /** The stages that are to be shown, each with how it ended. */
    private Map<StoredStage, RowView.Ending> endingsToShow() {
        lock.lock();
        try {
            for (int number : view.takeSettled()) {
                StoredStage stage = stages.get(number);
                if (stage != null && open.contains(stage)) {
                    unshown.add(stage);
                }
            }
            Map<StoredStage, RowView.Ending> ends = unshown.isEmpty() ? Collections.emptyMap() : new LinkedHashMap<>();
            unshown.forEach(stage -> ends.put(stage, view.ending(stage.number)));
            return ends;
        } finally {
            lock.unlock();
        }
    }

    /** The action that completes the future of a stage. */
    private Runnable wakeAction(StoredStage stage, RowView.Ending ended) {
        try {
            Throwable fault = ended.fault();
            Object value = fault == null ? ended.value() : null;
            return () -> service.host.wake(stage.future.getNumberOfDependents() > 0, () -> {
                if (fault == null) {
                    stage.future.complete(value);
                } else {
                    stage.future.completeExceptionally(fault);
                }
            });
        } catch (StoreException.Unknown silent) {
            throw silent;
        } catch (StoreException broken) {
            return () -> stage.future.completeExceptionally(broken);
        }
    }

    private boolean takeUnshown(StoredStage stage) {
        return withView(view -> {
            open.remove(stage);
            return unshown.remove(stage);
        });
    }

    // For a search over a store.

    /** Whether somebody here waits for a stage that is settled by all words, or a claim was granted that this session doesn't know of. */
    boolean hasUntold(RowView all) {
        return !view.foundClaims.isEmpty() || open.stream().anyMatch(stage -> all.isSettled(stage.number));
    }

    /** Fails all open stages' futures: this service doesn't work on the request any more. */
    void failAll(Throwable fault) {
        List<StoredStage> left;
        lock.lock();
        try {
            failure = fault;
            left = new ArrayList<>(open);
            open.clear();
            unshown.clear();
        } finally {
            lock.unlock();
        }
        left.forEach(stage -> stage.future.completeExceptionally(fault));
    }
}
