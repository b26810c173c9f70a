package cf.service;

import java.util.concurrent.CompletableFuture;

/**
 * A function whose thread is interrupted once its stage is settled otherwise. While it calls another function, as it settles a stage with one behind
 * it, the interrupt waits until that has ended. Its monitor stands between whoever interrupts and the thread that goes on.
 */
final class Running {
    /** Of each thread the innermost one, in the one place of a row: so a thread that lives on keeps no class of this library. */
    private static final ThreadLocal<Object[]> INNERMOST = new ThreadLocal<>();

    private final Stage<?> stage;
    private final Thread thread = Thread.currentThread();
    private final Object[] place;
    private final Running outer;
    /** Is completed once the function has ended. */
    private final CompletableFuture<Void> over = new CompletableFuture<>();
    private boolean isInnermost, isStopped, isInterrupted;

    /** The calling thread begins the function of this stage, whose request's lock it holds. */
    Running(Stage<?> stage) {
        this.stage = stage;
        Object[] row = INNERMOST.get();
        if (row == null) {
            row = new Object[1];
            INNERMOST.set(row);
        }
        place = row;
        outer = (Running) row[0];
        if (outer != null) {
            outer.pause();
        }
        isInnermost = true;
        row[0] = this;
        stage.extras().running = this;
        for (Scope at = stage.scope(); at != null; at = at.outer()) {
            at.running().add(this);
        }
    }

    /** The stage is settled. */
    synchronized void stop() {
        isStopped = true;
        interruptIfInnermost();
    }

    private void interruptIfInnermost() {
        if (isInnermost && isStopped && !isInterrupted) {
            isInterrupted = true;
            thread.interrupt();
        }
    }

    private synchronized void pause() {
        isInnermost = false;
        if (isInterrupted && Thread.interrupted()) {
            isInterrupted = false; // It comes again.
        }
    }

    private synchronized void goOn() {
        isInnermost = true;
        interruptIfInnermost();
    }

    /** The function has ended: its thread isn't interrupted any more. */
    void leave() {
        synchronized (this) {
            isInnermost = false;
            if (isInterrupted) {
                Thread.interrupted();
            }
        }
        place[0] = outer;
        synchronized (stage.request.lock()) {
            stage.extras().running = null;
            for (Scope at = stage.scope(); at != null; at = at.outer()) {
                at.running().remove(this);
            }
        }
        over.complete(null);
        if (outer != null) {
            outer.goOn();
        }
    }

    /** Waits until the function has ended, unless it is one that this thread is in the middle of. */
    void awaitEnd() {
        if (thread != Thread.currentThread()) {
            over.join();
        }
    }
}
