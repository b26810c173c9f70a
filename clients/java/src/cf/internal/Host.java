package cf.internal;

import java.security.SecureRandom;
import java.util.concurrent.ExecutorService;
import java.util.concurrent.Executors;
import java.util.concurrent.RejectedExecutionException;
import java.util.concurrent.TimeUnit;
import java.util.concurrent.atomic.AtomicInteger;
import java.util.concurrent.locks.Lock;
import java.util.concurrent.locks.ReentrantLock;
import java.util.function.BooleanSupplier;
import java.util.function.Supplier;
import java.util.logging.Level;
import java.util.logging.Logger;

/**
 * The time, the chance, the locks and the threads of a service over a store. This one is the process as it is. A test gives a service another
 * one, so that a search decides all of these.
 */
public class Host {
    private static final Logger LOGGER = Logger.getLogger("cf.store");
    private static final SecureRandom CHANCE = new SecureRandom();
    private static final AtomicInteger HOSTS = new AtomicInteger();

    private ExecutorService pool;
    private Thread pump;

    /** A thread's job for a request: work on it; act on a timer; forget it once it is closed. */
    public enum Job { WORK, FIRE, LET_GO }

    /** A function's call. */
    public interface FunctionCall {
        Object call() throws Throwable;
    }

    /** Nanoseconds of a clock that never goes back. */
    public long nanoTime() {
        return System.nanoTime();
    }

    /** Waits so many milliseconds. */
    public void sleep(long millis) throws InterruptedException {
        Thread.sleep(millis);
    }

    /** A number of so many bits by chance, of at most 63. */
    public long randomBits(int bits) {
        return CHANCE.nextLong() >>> 64 - bits;
    }

    /** A lock that its owner may take again. */
    public Lock newLock() {
        return new ReentrantLock();
    }

    /** Starts so many threads for jobs, at least one, and one that looks for news. It is called once. */
    public void startThreads(int threads, Runnable looks) {
        String named = "cf-store-" + HOSTS.incrementAndGet();
        AtomicInteger number = new AtomicInteger();
        pool = Executors.newFixedThreadPool(Math.max(threads, 1), run -> daemon(run, named + "-" + number.incrementAndGet()));
        pump = daemon(looks, named + "-pump");
        pump.start();
    }

    private static Thread daemon(Runnable run, String name) {
        Thread made = new Thread(run, name);
        made.setDaemon(true);
        return made;
    }

    /**
     * Hands a job for a request to a thread.
     *
     * @throws RejectedExecutionException after the end
     * @throws OutOfMemoryError where no thread can be started
     */
    public void execute(Job job, String request, Runnable act) {
        pool.execute(act);
    }

    /** Begins no more jobs, and waits for those that run. */
    public void shutDown() throws InterruptedException {
        pool.shutdown();
        pool.awaitTermination(Long.MAX_VALUE, TimeUnit.NANOSECONDS);
        pump.interrupt();
        pump.join();
    }

    /** Calls a function of this name. */
    public Object call(String function, FunctionCall call) throws Throwable {
        return call.call();
    }

    /** Throws an exception on that ends a run, and isn't the outcome of a function. */
    public void rethrowIfRunEnds(Throwable thrown) {}

    /** Warns that something can't be done now in a request, or in the store where none is named. */
    public void warn(String text, String request, Throwable thrown) {
        LOGGER.log(Level.WARNING, text, thrown);
    }

    /** Warns that a request is broken. Where it was dropped, another one of its name may be opened. */
    public void warnBroken(String text, boolean isDropped) {
        LOGGER.log(Level.WARNING, text);
    }

    /** Notes that a word of this service's stands at a place of a request's row, and the answer to its event. */
    public void noteAnswer(String request, int place, long word, int answer) {}

    /** Whether a word of a session is a sign of its life. In a search no time passes with words, so it isn't there. */
    public boolean takesWordsAsBeats() {
        return true;
    }

    /** Notes that a stage is read, as this process has it. */
    public void noteLook() {}

    /** In a search, waits until a stage is settled, or so many nanoseconds have passed, if they aren't negative. Whether it has waited. */
    public boolean awaitSettled(Supplier<String> name, BooleanSupplier isSettled, long nanos) {
        return false;
    }

    /** Completes a stage's future, by which its dependents are called within this call, if there are any. */
    public void wake(boolean isHeard, Runnable act) {
        act.run();
    }
}
