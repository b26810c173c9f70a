package cf.service;

import cf.service.Faults.Fault;
import java.util.List;
import java.util.concurrent.CompletableFuture;
import java.util.concurrent.ExecutionException;
import java.util.concurrent.Future;
import java.util.concurrent.TimeUnit;
import java.util.concurrent.TimeoutException;
import java.util.concurrent.atomic.AtomicInteger;
import java.util.concurrent.atomic.AtomicReferenceFieldUpdater;
import java.util.function.BooleanSupplier;

/**
 * The waiting for a stage, the waking when it ends, and the passing of a request's time. All that waits or wakes stands in this file. So a test
 * can lead threads through all orders in which they take a request's lock, or look at a stage without it: a {@link Leader} is asked first.
 *
 * <p>A stage's outcome is written under the lock ({@link #setOutcome}). Once the lock is free, {@link #wakeWaiters} completes the part that is
 * inherited of CompletableFuture, which wakes the waiters, and runs the observers. A thread that comes in between sees the outcome and needn't wait.
 */
abstract class Waits<T> extends CompletableFuture<T> {
    /** The outcome that stands for null. */
    static final Object NIL = new Object();

    @SuppressWarnings("rawtypes")
    private static final AtomicReferenceFieldUpdater<Waits, Object> OUTCOME =
            AtomicReferenceFieldUpdater.newUpdater(Waits.class, Object.class, "outcome");

    /** A Fault, NIL or a value once it is settled; null before. {@link #setOutcome} writes it under the request's lock. */
    volatile Object outcome;
    volatile Stage.Extras extras;

    /** An action at its end. */
    static final class Observer {
        final Runnable act;
        final Observer next;

        Observer(Runnable act, Observer next) {
            this.act = act;
            this.next = next;
        }
    }

    /** The lock of its request. */
    abstract Object lock();

    final Stage.Extras extras() {
        Stage.Extras it = extras;
        return it != null ? it : (extras = new Stage.Extras());
    }

    /** Settles it. The write needs no fence of its own, since the lock that is held is one. */
    void setOutcome(Object outcome) {
        OUTCOME.lazySet(this, outcome);
    }

    /**
     * The outcome, or null. A caller that sees an outcome finds the inherited part complete, too, which {@code allOf} and Java 19's {@code state}
     * read. Where that part has dependents, the thread that settled the stage is about to complete it: this one only asks, and mustn't call
     * functions.
     */
    Object readOutcome() {
        awaitTurn();
        Object told = this.outcome;
        if (told != null && !super.isDone() && super.getNumberOfDependents() == 0) {
            settleInherited();
        }
        return told;
    }

    /** Completes the inherited part with the outcome, which wakes its waiters. */
    @SuppressWarnings("unchecked")
    final void settleInherited() {
        Object told = this.outcome;
        if (told instanceof Fault) {
            super.completeExceptionally(((Fault) told).error());
        } else {
            super.complete(told == NIL ? null : (T) told);
        }
    }

    /** Whether Java's own classes have attached something that still waits. */
    final boolean hasJavaDependents() {
        return !super.isDone() && super.getNumberOfDependents() > 0;
    }

    /** Runs an action once the stage is settled: in the thread that settles it, or in this one if it is settled already. */
    final void observe(Runnable act) {
        synchronized (lock()) {
            if (outcome == null) {
                Stage.Extras more = extras();
                more.observers = new Observer(act, more.observers);
                return;
            }
        }
        act.run();
    }

    /** Wakes the waiters and runs the observers. If one throws, the others come all the same, and the first exception is thrown at the end. */
    void wakeWaiters() {
        Throwable first = null;
        awaitTurn();
        try {
            settleInherited();
        } catch (Throwable thrown) {
            first = thrown;
        }
        Stage.Extras more = this.extras;
        // None is added once there is an outcome.
        for (Observer each; more != null && (each = more.observers) != null;) {
            more.observers = each.next;
            try {
                each.act.run();
            } catch (Throwable thrown) {
                first = first == null ? thrown : first;
            }
        }
        if (first != null) {
            Request.<RuntimeException>rethrow(first);
        }
    }

    /** Waits until all of these are settled, or until this holds at the end of one of them. */
    static void awaitAll(List<Stage<?>> stages, BooleanSupplier orElse) throws InterruptedException {
        CompletableFuture<Void> over = new CompletableFuture<>();
        AtomicInteger left = new AtomicInteger(stages.size());
        for (Stage<?> each : stages) {
            ((Waits<?>) each).observe(() -> {
                if (left.decrementAndGet() == 0 || orElse.getAsBoolean()) {
                    over.complete(null);
                }
            });
        }
        Leader by = leader();
        if (by != null) {
            by.waitUntil(over::isDone, true);
        }
        try {
            over.get();
        } catch (ExecutionException none) {
            throw new AssertionError(none);
        }
    }

    // The inherited part waits for a stage that wasn't settled when it was read.

    @Override
    public T join() {
        waitAsLed(false);
        return super.join();
    }

    @Override
    public T get() throws InterruptedException, ExecutionException {
        waitAsLed(true);
        return super.get();
    }

    @Override
    public T get(long timeout, TimeUnit unit) throws InterruptedException, ExecutionException, TimeoutException {
        awaitTurn();
        return super.get(timeout, unit);
    }

    /**
     * A request's one alarm, for its machine's next deadline. The request's lock guards it, but isn't held while an alarm is set or stopped. One
     * that was set for a stage that is settled meanwhile rings too early, and sets the next one then.
     */
    static final class Alarm {
        static final long NEVER = Long.MAX_VALUE;

        private final Request request;
        /** The moment of the next deadline, as the machine told it last. */
        private long due = NEVER;
        private Ring set;

        /** One time that it rings. */
        final class Ring implements Runnable {
            private final long moment;
            private Future<?> task;
            private boolean hasRung;

            private Ring(long moment) {
                this.moment = moment;
            }

            @Override
            public void run() {
                request.passTime(this);
            }
        }

        Alarm(Request request) {
            this.request = request;
        }

        /** The machine's next deadline is at this moment. The lock is held. */
        void setDue(long moment) {
            due = moment;
        }

        /** The moment for which it is to be {@link #set} once the lock is free, or NEVER. The lock is held. */
        long missing() {
            return due < comes() ? due : NEVER;
        }

        private long comes() {
            return set == null ? NEVER : set.moment;
        }

        /** Sets it, unless it rings earlier by now, or nothing is due any more. Where no thread can be started, the alarm that there was stays. */
        void set(long moment) {
            Ring made = new Ring(moment), over = made;
            made.task = Clock.runAt(moment, made);
            synchronized (request.lock()) {
                if (!made.hasRung && due < NEVER && moment < comes()) {
                    over = set;
                    set = made;
                }
            }
            stop(over);
        }

        /** It rings: the moment of the next deadline, if that has come, or NEVER. A limit that was set slowly comes at once. The lock is held. */
        long takeDue(Ring ring) {
            ring.hasRung = true;
            set = set == ring ? null : set;
            return due > Clock.now() ? NEVER : due;
        }

        /** Takes the alarm away where nothing is due; the caller stops it once the lock is free. The lock is held. */
        Ring takeIfIdle() {
            Ring over = due == NEVER ? set : null;
            set = over == null ? set : null;
            return over;
        }

        static void stop(Ring ring) {
            if (ring != null) {
                ring.task.cancel(false);
            }
        }
    }

    // A search of the above, in a test.

    /** Leads threads, and stands for the clock, in a process that was started with {@code -Dcf.search=true}. */
    interface Leader {
        /** Waits until this thread may go on. */
        void awaitTurn();

        /** Waits until this holds, or this thread is interrupted, if it heeds that. */
        void waitUntil(BooleanSupplier until, boolean orInterrupted);

        long now();

        Future<?> runAt(long moment, Runnable act);
    }

    private static final boolean SEARCHED = Boolean.getBoolean("cf.search");
    private static volatile Leader leader;

    static void setLeader(Leader one) {
        leader = one;
    }

    /** The leader; null outside such tests. */
    static Leader leader() {
        return SEARCHED ? leader : null;
    }

    /** Lets others go on first. */
    static void awaitTurn() {
        Leader by = leader();
        if (by != null) {
            by.awaitTurn();
        }
    }

    private void waitAsLed(boolean orInterrupted) {
        Leader by = leader();
        if (by != null) {
            by.waitUntil(super::isDone, orInterrupted);
        }
    }
}
