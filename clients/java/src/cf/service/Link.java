package cf.service;

import cf.internal.Watch;
import cf.service.Faults.Fault;
import java.util.concurrent.CompletableFuture;
import java.util.concurrent.CompletionStage;
import java.util.concurrent.atomic.AtomicReference;
import java.util.function.BiConsumer;

/**
 * What a relay hangs by on the future that settles it. It is let go once nobody needs the relay any more, so a future that lives long keeps
 * nothing of the requests that were behind it.
 *
 * <p>Of a future that is no stage it is the callback, and holds what that told while it was being hung up.
 */
@SuppressWarnings("serial")
final class Link extends AtomicReference<Object> implements BiConsumer<Object, Throwable>, Runnable {
    private static final Object HANGS = new Object();

    /** Until it is settled, or let go. */
    private volatile Stage<?> relay;
    /** Whether a fault of the relay is wrapped for all who are told it. */
    final boolean wraps;
    /** The stage at whose end nobody needs the relay any more, until it is told of this. */
    private Stage<?> dependent;

    /** In the row of this stage, which it hangs on; its places there are the lock's of that stage's request. */
    private Stage<?> source;
    private Link previous;
    Link next;
    /** Whoever completes it takes away what hangs behind a future of Java's. */
    private volatile CompletableFuture<Object> release;

    /** Links in the order in which they came. */
    static final class Chain {
        private Link first, last;

        void add(Link link) {
            link.previous = last;
            if (last == null) {
                first = link;
            } else {
                last.next = link;
            }
            last = link;
        }

        /** All of them, by {@link Link#next}. */
        Link takeAll() {
            Link all = first;
            first = last = null;
            return all;
        }

        void remove(Link link) {
            if (first == null || link.previous == null && first != link) {
                return; // They were taken, or this one was.
            }
            if (link.previous == null) {
                first = link.next;
            } else {
                link.previous.next = link.next;
            }
            if (link.next == null) {
                last = link.previous;
            } else {
                link.next.previous = link.previous;
            }
            link.previous = link.next = null;
        }
    }

    Link(Stage<?> relay, Stage<?> behind, boolean wraps) {
        this.relay = relay;
        this.dependent = behind;
        this.wraps = wraps;
    }

    /** The relay, which the caller is to settle; or null where that was done, or isn't needed. */
    Stage<?> takeRelay() {
        Stage<?> taken = relay;
        relay = null;
        return taken;
    }

    /** Who runs the relay's request; null where nobody does, or the relay was taken. */
    Watch relayWatch() {
        Stage<?> stage = relay;
        return stage == null ? null : stage.request.watch;
    }

    /** It stands in a row now: that of a stage whose request's lock is held. */
    void setSource(Stage<?> stage) {
        source = stage;
    }

    /** Hangs it on a future that is no stage. What that has told by the end of the call is given back, else null. */
    Object hangOn(CompletionStage<?> of) {
        if (of.getClass() == CompletableFuture.class && !((CompletableFuture<?>) of).isDone()) {
            CompletableFuture<?> future = (CompletableFuture<?>) of;
            CompletableFuture<Object> end = release = new CompletableFuture<>();
            // Where one of anyOf's futures is completed, Java takes away what it has put behind the others. It does so for nothing else.
            CompletableFuture.anyOf(future, end).whenComplete((value, error) -> {
                if (relay != null) {
                    future.whenComplete(this);
                }
            });
        } else {
            of.whenComplete(this);
        }
        return compareAndSet(null, HANGS) ? null : get();
    }

    @Override
    public void accept(Object value, Throwable error) {
        Object told = error != null ? new Fault(error) : value == null ? Stage.NIL : value;
        if (compareAndSet(null, told) || get() != HANGS) {
            return; // By whoever hangs it up: what a chain of finished futures tells is no recursion.
        }
        Request.settleLinked(this, told);
    }

    /** Lets it go at the end of the stage that needs the relay. */
    void removeOnceSettled() {
        Stage<?> end = dependent;
        dependent = null;
        removeOnceSettled(end);
    }

    void removeOnceSettled(Stage<?> end) {
        if (relay != null) {
            end.observe(this);
        }
    }

    /** Lets it go: nobody needs the relay. */
    @Override
    public void run() {
        if (takeRelay() == null) {
            return;
        }
        CompletableFuture<Object> end = release;
        if (end != null) {
            end.complete(null);
        }
        Stage<?> stage = source;
        if (stage != null) {
            stage.request.unlink(stage, this);
        }
    }
}
