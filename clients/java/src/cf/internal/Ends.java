package cf.internal;

import java.util.concurrent.Executor;
import java.util.concurrent.LinkedBlockingQueue;
import java.util.concurrent.RejectedExecutionException;
import java.util.concurrent.ThreadPoolExecutor;
import java.util.concurrent.TimeUnit;
import java.util.function.Consumer;
import java.util.function.Supplier;
import java.util.logging.Level;
import java.util.logging.Logger;

/**
 * Tells a hook of requests that have ended, one after another, by their histories. It does so on a thread of its own, which is there while some are
 * left: a hook that is slow or throws holds up nothing else, and the JVM waits for it. If too many requests wait for it, further ones aren't told.
 */
public final class Ends<H> {
    private static final int MOST = 2048, IDLE_MILLIS = 100;

    private final Consumer<? super H> hook;
    private final String logger;
    private final ThreadPoolExecutor thread = new ThreadPoolExecutor(1, 1, IDLE_MILLIS, TimeUnit.MILLISECONDS, new LinkedBlockingQueue<>(MOST),
            Ends::newThread);
    private volatile boolean isFull;

    /** Warns by the logger of this name. */
    public Ends(Consumer<? super H> hook, String logger) {
        this.hook = hook;
        this.logger = logger;
        thread.allowCoreThreadTimeOut(true);
    }

    /** A thread that the JVM waits for, also where a daemon makes it. */
    private static Thread newThread(Runnable run) {
        Thread made = new Thread(run, "cf-ends");
        made.setDaemon(false);
        return made;
    }

    /**
     * Has the hook told of a history, which is made on the hook's thread, in the context where its request was opened, if that isn't null. It throws
     * nothing.
     */
    public void tell(Supplier<? extends H> history, Executor within) {
        try {
            thread.execute(() -> callHook(history, within));
            isFull = false;
        } catch (RejectedExecutionException full) {
            if (!isFull) {
                isFull = true;
                warn(logger, MOST + " ended requests wait for the hook: further ones aren't told", null);
            }
        } catch (Throwable none) {
            warn(logger, "the end of a request isn't told", none);
        }
    }

    private void callHook(Supplier<? extends H> made, Executor within) {
        try {
            H history = made.get();
            if (within == null) {
                hook.accept(history);
            } else {
                within.execute(() -> hook.accept(history));
            }
        } catch (Throwable thrown) {
            warn(logger, "the hook of an ended request has thrown", thrown);
        }
    }

    /** Takes no more, and waits until the hook was told of all, for so many seconds at most. */
    public void drain(long seconds) throws InterruptedException {
        thread.shutdown();
        thread.awaitTermination(seconds, TimeUnit.SECONDS);
    }

    /** Warns by this logger. */
    public static void warn(String logger, String said, Throwable thrown) {
        Logger.getLogger(logger).log(Level.WARNING, said, thrown);
    }
}
