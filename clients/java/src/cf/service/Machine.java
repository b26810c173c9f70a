package cf.service;

import cf.internal.Form;
import cf.internal.Freed;
import cf.internal.Layout;
import cf.internal.Native;
import cf.internal.Words;
import java.lang.ref.WeakReference;
import java.nio.ByteBuffer;
import java.nio.ByteOrder;
import java.util.ArrayList;
import java.util.Arrays;
import java.util.List;
import java.util.concurrent.TimeUnit;
import java.util.concurrent.atomic.AtomicReferenceArray;

/**
 * A request of the library (docs/REQUEST.md), with the times of its words. It decides everything: this class hands over what happens and
 * brings back what is to be done. It is its request's lock, so one thread at a time uses the library's handle, as the library demands. The
 * thread that holds the lock also keeps the core reachable, so that it isn't freed within a call. A core is in one machine or in the pool of
 * one plan, never in two places.
 *
 * <p>A word that only attaches a stage, whose sources aren't settled, waits for the next call that can change something: one crossing does
 * them all.
 *
 * <p>A call that claims takes all ready stages without an executor. So between calls no such stage is ready, unless memory was refused, and
 * the thread that made a stage ready has claimed it.
 */
final class Machine {
    static final int MOST_STAGES = 4096, MOST_EDGES = 16384;

    /** Who calls a stage's function: the thread that made it ready, or an executor. */
    static final int HERE = Layout.HERE, BY_EXECUTOR = Layout.BY_EXECUTOR;

    /** The caller where none claims. */
    static final int NOBODY = -1;

    private static final boolean TIMES = !"false".equals(System.getProperty("cf.times"));
    /** Of how many stages more than those of its plan a core is kept to be used again, and with 16 times as many events. */
    private static final int MOST_KEPT = 512;
    private static final Pool NO_PLAN = new Pool(0);
    private static final long[] NONE = {}, ONE = {1};
    /** Cores that aren't freed, and how many of them there may be before each takes so many bytes in the heap for a moment. */
    private static final int MANY = 8192, BYTES = 8192;
    private static byte[] ballast;
    /** Whether histories have what was told, which tests compare with what is told where the words are done again. */
    static final boolean WITNESSED = Boolean.getBoolean("cf.witness");

    static {
        Native.load();
    }

    private final Plan plan;
    private Core core;
    /** How many stages there are, and how many of them are settled. */
    private int stages, settledStages;
    private int waitingWords;
    /** The word that waits before it is opened, and since when; else 0. */
    private long firstWord, since;
    /** The words and their moments, which count where there is no core, and a bit for each stage whose function an executor calls. */
    private long[] keptWords, executors = NONE;
    private int keptCount;
    /** Sets relays and deadlines again, which aren't in the words. */
    private Runnable restore;
    /** The place in the pool of the thread that opened it. */
    private int poolPlace;
    /** Whether words came once the core was given back. */
    private boolean isReopened;
    /** Of each settled stage its number and outcome, of each claim its stage and arguments. */
    private final List<int[]> witness = WITNESSED ? new ArrayList<>() : null;

    /** Memory outside the heap: a core of native/cf_java.c. */
    static final class Core {
        final long address;
        final ByteBuffer memory;
        final Freed freed;

        /** The memory, which outlives a core that nobody can reach. It is registered first, so that a core that fails to be made is freed, too. */
        private static final class Allocation implements Runnable {
            /** The pool of its plan, which it doesn't keep. */
            private final WeakReference<Pool> pool;
            private long address;
            private ByteBuffer memory;

            private Allocation(WeakReference<Pool> pool) {
                this.pool = pool;
            }

            /** Whether it has a whole core of that plan. */
            boolean isOf(Pool pool) {
                return address != 0 && memory != null && this.pool == pool.self;
            }

            @Override
            public void run() {
                long freed = address;
                address = 0;
                if (freed != 0) {
                    Native.LIVE.getAndDecrement();
                    destroy(freed);
                }
            }
        }

        /** One of a plan. */
        private Core(Pool pool) {
            Allocation outside = new Allocation(pool.self);
            freed = new Freed(this, outside);
            address = outside.address = createOrThrow();
            Native.LIVE.getAndIncrement();
            memory = outside.memory = memory(address).order(ByteOrder.nativeOrder());
            makeBallast();
        }

        /** Takes the memory over of a core that nobody can reach. */
        private Core(Allocation lost) {
            makeBallast();
            Allocation outside = new Allocation(lost.pool);
            freed = new Freed(this, outside);
            memory = outside.memory = lost.memory;
            long handed = lost.address;
            lost.address = 0; // Where a thread is stopped here, neither one has it, rather than both.
            address = outside.address = handed;
        }

        /** One of this plan that nobody can reach, or a new one. Some others that nobody can reach are freed meanwhile. */
        static Core reuseOrCreate(Pool pool) {
            Runnable gone;
            for (int k = 0; k < Freed.SOME && (gone = Freed.poll()) != null; k++) {
                Core core = null;
                try {
                    core = gone instanceof Allocation && ((Allocation) gone).isOf(pool) ? new Core((Allocation) gone) : null;
                } finally {
                    gone.run(); // It has nothing where it was handed over.
                }
                if (core != null) {
                    return core;
                }
            }
            return new Core(pool);
        }

        /**
         * The collector doesn't see what a core takes outside the heap, and so may find late which cores nobody can reach. Where there are
         * many, one that wasn't given back also takes as much in the heap, which is garbage at once: so the collector comes as often as if it
         * saw it. What it has found goes to those who open the next ones. Nobody waits for it, and memory ends only where the system refuses it.
         */
        private static void makeBallast() {
            if (Native.LIVE.get() > MANY) {
                ballast = new byte[BYTES];
            }
        }

        private static long createOrThrow() {
            long made = create(TIMES);
            if (made == 0) {
                Freed.freeAll();
                made = create(TIMES);
            }
            if (made == 0) {
                throw Native.noMemory();
            }
            return made;
        }
    }

    /** How many cores aren't freed. */
    static int liveCores() {
        return Native.LIVE.get();
    }

    /** Cores of closed requests of one plan, whose requests start again. A thread looks first for one of those that it had opened. */
    static final class Pool {
        private static final int MOST = Math.max(1, Integer.getInteger("cf.kept", 64));
        private final AtomicReferenceArray<Core> free;
        /** Requests whose stages are all settled: of each thread that opens requests the last one. */
        private final AtomicReferenceArray<Machine> overMachines;
        private final WeakReference<Pool> self = new WeakReference<>(this);

        Pool(int stages) {
            free = new AtomicReferenceArray<>(stages <= MOST_KEPT ? MOST : Math.min(MOST, 4));
            overMachines = new AtomicReferenceArray<>(free.length());
        }

        /** Of this thread. */
        private int placeOfThread() {
            return ((int) Thread.currentThread().getId() & Integer.MAX_VALUE) % free.length();
        }

        /**
         * All stages of this request are settled. Most likely nobody needs it any more, and perhaps nobody closes it: so the next one of its
         * thread that is over has its core given back. Where two come at once, one may be forgotten here, which the collector finds.
         */
        private void noteOver(Machine machine) {
            Machine before = overMachines.get(machine.poolPlace);
            if (before != machine) {
                overMachines.lazySet(machine.poolPlace, machine);
                if (before != null) {
                    before.giveBackUnasked();
                }
            }
        }

        /** One, or null; that of this place if there is one. */
        Core take(int place) {
            for (int k = 0, at = place; k < free.length(); k++) {
                Core core = free.get(at) == null ? null : free.getAndSet(at, null);
                if (core != null) {
                    return core;
                }
                at = at + 1 == free.length() ? 0 : at + 1;
            }
            return null;
        }

        /** Whether there was a place for it, from this one on. */
        boolean put(Core core, int place) {
            for (int k = 0, at = place; k < free.length(); k++) {
                if (free.get(at) == null && free.compareAndSet(at, null, core)) {
                    return true;
                }
                at = at + 1 == free.length() ? 0 : at + 1;
            }
            return false;
        }
    }

    /** A plan of the library; it is freed once no request needs it. */
    static final class Plan {
        final long address;
        final int[] rows;
        final int stages;
        /** How many stages there may be by and by: two edges are set aside for each that is attached. */
        final int mostStages;
        final Pool pool;

        Plan(int[] rows, int stages, int edges) {
            long made = Native.plan(rows);
            if (made < 0) {
                throw Native.refusal((int) -made);
            }
            address = made;
            this.rows = rows;
            this.stages = stages;
            mostStages = Math.min(MOST_STAGES, stages + (MOST_EDGES - edges) / 2);
            pool = new Pool(stages);
            new Freed(this, () -> Native.forget(made));
        }
    }

    Machine(Plan plan, int room) {
        this.plan = plan;
        stages = plannedStages();
        open(room);
    }

    /** One without a plan, which the first call after this one opens. Its stage has an executor. */
    Machine(long word) {
        plan = null;
        firstWord = word;
        since = TIMES ? Native.ticks() : 0;
        stages = 1;
        executors = ONE;
    }

    private int plannedStages() {
        return plan == null ? 0 : plan.stages;
    }

    private Pool pool() {
        return plan == null ? NO_PLAN : plan.pool;
    }

    /** The core; if it was given back, another one, in which all is as it was. */
    private Core core() {
        if (core == null) {
            isReopened = keptWords != null;
            open(stages - plannedStages());
            if (restore != null) {
                try {
                    restore.run();
                } catch (Throwable refused) {
                    Core half = core;
                    core = null; // Nobody uses it once it is freed, wherever this thread is stopped.
                    half.freed.freeNow();
                    throw refused;
                }
                restore = null;
            }
            keptWords = null;
        }
        return core;
    }

    private Core takeCore() {
        poolPlace = pool().placeOfThread();
        Core core = pool().take(poolPlace);
        if (core == null) {
            return Core.reuseOrCreate(pool());
        }
        Freed.freeSome();
        return core;
    }

    /** With so much room, of which the machine makes more itself. */
    private void open(int room) {
        Core core = takeCore();
        long of = plan == null ? 0 : plan.address;
        int code = open(core.address, of, room, keptWords, keptCount, executors);
        if (code == Layout.NO_MEMORY) {
            Freed.freeAll();
            code = open(core.address, of, room, keptWords, keptCount, executors);
        }
        if (code != Layout.OK) {
            core.freed.freeNow();
            throw Native.refusal(code);
        }
        boolean waits = isUnopened();
        if (waits) {
            core.memory.putLong(Layout.CORE_WORDS, firstWord);
            core.memory.put(Layout.CORE_LANES, (byte) BY_EXECUTOR);
            setSince(core.address, since);
        }
        // No method is called from here on, so that a stack that is at its end can't leave half of it.
        this.core = core;
        waitingWords = waits ? 1 : 0;
        firstWord = 0;
    }

    private boolean isUnopened() {
        return firstWord != 0;
    }

    /** Opens a core, and does the word that waits and this one. Where that fails, the word waits as before. */
    private void openWith(long word, int who) {
        Core core = takeCore();
        int code = openWith(core.address, firstWord, since, word, who);
        if (code == Layout.NO_MEMORY) {
            Freed.freeAll();
            code = openWith(core.address, firstWord, since, word, who);
        }
        if (code != Layout.OK) {
            core.freed.freeNow();
            throw Native.refusal(code);
        }
        this.core = core;
        firstWord = 0;
        accept(code);
    }

    int stages() {
        return stages;
    }

    boolean hasPlace(int more) {
        return stages + more <= (plan == null ? MOST_STAGES : plan.mostStages);
    }

    private void noteExecutor(int stage) {
        if (executors == ONE || executors.length <= stage >>> 6) {
            executors = Arrays.copyOf(executors, Math.max(2 * executors.length, (stage >>> 6) + 1));
        }
        executors[stage >>> 6] |= 1L << stage;
    }

    /** Attaches a stage whose sources aren't settled. */
    int attachLater(long word, int lane) {
        Core core = core();
        if (waitingWords == Layout.MOST_WORDS) {
            flush();
        }
        if (waitingWords == 0 && TIMES) {
            setSince(core.address, 0);
        }
        core.memory.putLong(Layout.CORE_WORDS + Long.BYTES * waitingWords, word);
        core.memory.put(Layout.CORE_LANES + waitingWords, (byte) lane);
        waitingWords++;
        return countAttached(lane);
    }

    int attach(long word, int lane, int who) {
        apply(word, lane, who);
        return countAttached(lane);
    }

    /** Attaches stages that wait for all of those, or for one of them: one less than those, of which the last one does. */
    void gather(Form form, short[] of, int who) {
        accept(gather(core().address, waitingWords, form.ordinal(), of, who));
        stages += of.length - 1;
    }

    private int countAttached(int lane) {
        if (lane == BY_EXECUTOR) {
            noteExecutor(stages);
        }
        return stages++;
    }

    /** Does the words that wait. They settle nothing. */
    void flush() {
        if (waitingWords > 0) {
            accept(apply(core().address, waitingWords, 0, HERE, NOBODY));
        }
    }

    /** Does the event of a word, and claims for the caller, if it isn't {@link #NOBODY}, what is ready then. */
    void apply(long word, int who) {
        apply(word, HERE, who);
    }

    /** Does the event of a word of another machine once more. What it made ready is brought, and nobody claims it. */
    void replay(long word) {
        apply(word, BY_EXECUTOR, NOBODY);
    }

    private void apply(long word, int lane, int who) {
        if (core == null && isUnopened() && lane == HERE) {
            openWith(word, who);
        } else {
            accept(apply(core().address, waitingWords, word, lane, who));
        }
    }

    /** Finishes a stage that the caller has claimed, by the number of a value or exception, and claims what is ready then. */
    void finish(int stage, boolean isThrown, int number, int who) {
        accept(finish(core().address, waitingWords, stage, isThrown, number, who, settledStages == stages - 1));
    }

    /** Finishes a stage by this word, which links it, to a relay where that isn't -1; from now on the relay follows that stage. */
    void link(long word, int relay, int stage, int who) {
        accept(link(core().address, waitingWords, word, relay, stage, who));
    }

    /** From now on the relay follows that stage. */
    void follow(int relay, int stage) {
        accept(link(core().address, waitingWords, 0, relay, stage, NOBODY));
    }

    /** Lets a stage end once so many of those have values, or too few can have them still; or cancels it then. */
    void join(int stage, int wanted, short[] of, boolean cancels, int who) {
        accept(join(core().address, waitingWords, stage, wanted, of, cancels, who));
    }

    /** Sets a deadline, at which a stage gets the value of a number, or times out. */
    void setDeadline(int stage, long moment, boolean gives, int number) {
        accept(setDeadline(core().address, waitingWords, stage, moment, gives, number));
    }

    /** Lets time pass up to a moment. */
    void passTimeTo(long moment, int who) {
        accept(passTimeTo(core().address, waitingWords, moment, who));
    }

    /** Brings what had no place, and says whether there was any. */
    boolean fetchMore(int who) {
        if (core.memory.getInt(Layout.CORE_HAS_MORE) == 0) {
            return false;
        }
        accept(fetchMore(core.address, who));
        return true;
    }

    /** What a crossing came to, whose code it is. */
    private void accept(int code) {
        if (code != Layout.OK) {
            throwRefusal(code);
        }
        int settled = settledCount();
        // No method is called from here on, so that a stack that is at its end can't leave half of it.
        waitingWords = 0;
        settledStages += settled;
        if (WITNESSED) {
            addWitness();
        }
    }

    /** Drops the words that were done before a refusal, and throws that. */
    private void throwRefusal(int code) {
        ByteBuffer memory = core.memory;
        int done = memory.getInt(Layout.CORE_DONE);
        waitingWords -= done;
        for (int k = 0; k < waitingWords; k++) {
            memory.putLong(Layout.CORE_WORDS + Long.BYTES * k, memory.getLong(Layout.CORE_WORDS + Long.BYTES * (k + done)));
            memory.put(Layout.CORE_LANES + k, memory.get(Layout.CORE_LANES + k + done));
        }
        throw Native.refusal(code);
    }

    private void addWitness() {
        for (int k = 0; k < settledCount(); k++) {
            witness.add(new int[] {settledStage(k), settledKind(k), isWrapped(k) ? 1 : 0, settledNumber(k)});
        }
        for (int k = 0; k < claimedCount(); k++) {
            witness.add(new int[] {claimedStage(k), argumentsKind(k), sourceKind(k), isSourceWrapped(k) ? 1 : 0, firstArgument(k), secondArgument(k)});
        }
    }

    /** What was brought until now; null where that isn't kept. */
    int[][] witnesses() {
        return witness == null ? null : witness.toArray(new int[0][]);
    }

    // What the last call brought into the core.

    int answer() {
        return core.memory.getInt(Layout.CORE_ANSWER);
    }

    int replyNumber() {
        return core.memory.getInt(Layout.CORE_REPLY + Layout.REPLY_NUMBER);
    }

    /** A number of the arguments of the last claim, which are at this place of cf_args. */
    int replyArgument(int place) {
        return core.memory.getInt(Layout.CORE_REPLY + Layout.REPLY_ARGS + place);
    }

    /** The moment of the next deadline; {@code Long.MAX_VALUE} where there is none. */
    long nextDeadline() {
        long due = core.memory.getLong(Layout.CORE_DUE);
        return due < 0 ? Long.MAX_VALUE : due;
    }

    /** How many stages were settled. */
    int settledCount() {
        return core.memory.getInt(Layout.CORE_SETTLED_COUNT);
    }

    int settledStage(int k) {
        return core.memory.getShort(Layout.CORE_SETTLED + Layout.TOLD_SIZE * k + Layout.TOLD_STAGE);
    }

    /** A number of the outcome of one of them, which is at this place of cf_outcome. */
    private int settledOutcome(int k, int place) {
        return core.memory.getInt(Layout.CORE_SETTLED + Layout.TOLD_SIZE * k + Layout.TOLD_OUTCOME + place);
    }

    int settledKind(int k) {
        return settledOutcome(k, Layout.OUTCOME_KIND);
    }

    boolean isWrapped(int k) {
        return settledOutcome(k, Layout.OUTCOME_WRAPPED) != 0;
    }

    int settledNumber(int k) {
        return settledNumber(k, settledKind(k));
    }

    /** Its value's number, -1 for null; or the code of its failure. Its outcome is of this kind. */
    int settledNumber(int k, int kind) {
        if (kind != Layout.VALUE) {
            return settledOutcome(k, Layout.OUTCOME_CODE);
        }
        boolean isNull = settledOutcome(k, Layout.OUTCOME_VALUE + Layout.VALUE_KIND) == Layout.NIL;
        return isNull ? Words.NIL : settledOutcome(k, Layout.OUTCOME_VALUE + Layout.VALUE_NUMBER);
    }

    /** How many stages were claimed. */
    int claimedCount() {
        return core.memory.getInt(Layout.CORE_CLAIMED_COUNT);
    }

    private static int claimed(int k, int place) {
        return Layout.CORE_CLAIMED + Layout.CLAIMED_SIZE * k + place;
    }

    int claimedStage(int k) {
        return core.memory.getShort(claimed(k, Layout.CLAIMED_STAGE));
    }

    /** What its function is called with. */
    int argumentsKind(int k) {
        return core.memory.get(claimed(k, Layout.CLAIMED_KIND));
    }

    /** How its source ended, where its function takes an outcome. */
    int sourceKind(int k) {
        return core.memory.get(claimed(k, Layout.CLAIMED_OUTCOME));
    }

    boolean isSourceWrapped(int k) {
        return core.memory.get(claimed(k, Layout.CLAIMED_WRAPPED)) != 0;
    }

    /** The number of its first value, -1 for null; or the code of its source's failure. */
    int firstArgument(int k) {
        return core.memory.getInt(claimed(k, Layout.CLAIMED_FIRST));
    }

    int secondArgument(int k) {
        return core.memory.getInt(claimed(k, Layout.CLAIMED_SECOND));
    }

    /** How many stages became ready whose functions executors call. */
    int readyCount() {
        return core.memory.getInt(Layout.CORE_READY_COUNT);
    }

    int readyStage(int k) {
        return core.memory.getShort(Layout.CORE_READY + Short.BYTES * k);
    }

    /** Those of the plan that are ready before anything was done, as many as there is place for, from a number on. */
    int fetchReady(int stage) {
        return fetchReady(core().address, stage);
    }

    /** Brings the outcome of a stage as that of the first settled one, and says whether it is settled. */
    boolean isSettled(int stage) {
        core();
        flush();
        check(fetchOutcome(core.address, stage));
        return settledKind(0) != Layout.PENDING;
    }

    private static void check(int code) {
        if (code != Layout.OK) {
            throw Native.refusal(code);
        }
    }

    // All of it.

    int events() {
        return (core == null ? keptCount : core.memory.getInt(Layout.CORE_EVENTS)) + waitingWords;
    }

    /** The words, and behind them the moments: of each its ticks, in 56 bits, and how many events were done since the one before it. */
    long[] wordsAndMoments() {
        if (core == null && keptWords != null) {
            return keptWords;
        }
        core();
        flush();
        int events = events();
        long[] all = new long[events + core.memory.getInt(Layout.CORE_MOMENTS)];
        if (core.memory.getInt(Layout.CORE_HAS_WORDS) != 0) {
            for (int k = 0; k < all.length; k++) {
                all[k] = core.memory.getLong(Layout.CORE_WORDS + Long.BYTES * k);
            }
        } else {
            check(words(core.address, all, 0, events));
        }
        return all;
    }

    /** Those words that were done from a place on. A core that was given back isn't asked for again. */
    long[] words(int from) {
        int count = events() - waitingWords - from;
        if (count == 0 || core == null) {
            return count == 0 ? NONE : Arrays.copyOfRange(keptWords, from, from + count);
        }
        long[] some = new long[count];
        check(words(core.address, some, from, count));
        return some;
    }

    /** The time of each word in nanoseconds from the first one's on, of what was kept; null without times. */
    static long[] wordTimes(long[] kept, int count) {
        if (!TIMES) {
            return null;
        }
        double rate = Native.nanosPerTick();
        long[] times = new long[count];
        for (int k = count, at = 0; k < kept.length; k++) {
            long time = Math.round(ticksBetween(kept[k], kept[count]) * rate);
            for (int events = (int) kept[k] & 0xff; events > 0 && at < count; events--) {
                times[at++] = time;
            }
        }
        return times;
    }

    /** When the first word was done, of what was kept, in nanoseconds since 1970. */
    static long startTime(long[] kept, int count) {
        long now = TimeUnit.MILLISECONDS.toNanos(System.currentTimeMillis());
        return TIMES && count < kept.length ? now - Math.round(ticksBetween(Native.ticks() << 8, kept[count]) * Native.nanosPerTick()) : now;
    }

    /** From one moment to another, of what was kept. */
    private static long ticksBetween(long moment, long since) {
        return (moment & ~0xffL) - (since & ~0xffL) >>> 8;
    }

    /** Gives the core back. If a word comes nevertheless, another core does all words again, and then this is run, if it isn't null. */
    void giveBackCore(Runnable again) {
        if (core == null) {
            return;
        }
        long[] all = wordsAndMoments();
        Core core = this.core;
        keptCount = events();
        keptWords = all;
        this.restore = again;
        this.core = null;
        if (!isSmall() || !pool().put(core, poolPlace)) {
            core.freed.freeNow();
        }
    }

    private boolean isSmall() {
        return stages - plannedStages() <= MOST_KEPT && events() <= 16 * MOST_KEPT;
    }

    /** Whether all its stages are settled. */
    boolean isOver() {
        return settledStages == stages;
    }

    /**
     * Whether it may give its core back unasked. Where words come nevertheless, the core that it has again stays, so that all words are done again
     * but once.
     */
    boolean mayGiveBackCore() {
        return isOver() && !isReopened && isSmall();
    }

    /** Has the core given back with the next request of its thread that is over. The caller holds no lock. */
    void giveBackLater() {
        pool().noteOver(this);
    }

    /** Gives the core back, unless there is no memory for the words now. */
    void tryGiveBackCore() {
        try {
            giveBackCore(null);
        } catch (VirtualMachineError none) {
            // There may be more as the request is closed.
        }
    }

    private void giveBackUnasked() {
        if (core == null) { // It was closed. If another thread has just had it opened again, it isn't over.
            return;
        }
        synchronized (this) {
            if (mayGiveBackCore()) {
                tryGiveBackCore();
            }
        }
    }

    // The methods of native/cf_java.c. One thread at a time has a core, whose lock it holds. Those that use a core are called on its machine, so
    // that neither core nor plan is unreachable meanwhile, whatever a compiler makes of the caller.

    /**
     * Does the words in the memory that wait, so many, and then one more, if it isn't 0. Then it claims for the caller {@code who}, if that
     * isn't negative: the stage that the word claims, or else all that are ready for whoever made them ready. It gives a code.
     */
    native int apply(long core, int waiting, long word, int lane, int who);

    /** Where it is the last finish, it also brings the words, if they are few: they stand where words wait, with their moments. */
    native int finish(long core, int waiting, int stage, boolean isThrown, int number, int who, boolean last);

    native int gather(long core, int waiting, int form, short[] sources, int who);

    native int join(long core, int waiting, int stage, int wanted, short[] sources, boolean cancels, int who);

    native int link(long core, int waiting, long word, int relay, int stage, int who);

    native int setDeadline(long core, int waiting, int stage, long moment, boolean gives, int number);

    native int passTimeTo(long core, int waiting, long moment, int who);

    native int fetchMore(long core, int who);

    native int fetchOutcome(long core, int stage);

    native int fetchReady(long core, int from);

    /** This is when the first word came that waits: these ticks, or now. */
    native void setSince(long core, long ticks);

    /** A core without a request, or 0. */
    static native long create(boolean timed);

    static native ByteBuffer memory(long core);

    static native void destroy(long core);

    /** A request of a plan, 0 for the one without stages, with room, in which the first n of these words are done, with their moments. */
    native int open(long core, long plan, int room, long[] kept, int n, long[] executors);

    /** A request of no plan, of which the first word attaches an executor's stage and came at that moment, and then this one is done as above. */
    native int openWith(long core, long attach, long since, long word, int who);

    /** The n words from a place on, and behind them the moments for which there is place. */
    native int words(long core, long[] into, int from, int n);
}
