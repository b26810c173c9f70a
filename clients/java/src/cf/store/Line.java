package cf.store;

import cf.internal.Native;
import java.nio.charset.StandardCharsets;
import java.util.concurrent.ArrayBlockingQueue;
import java.util.concurrent.BlockingQueue;
import java.util.concurrent.ConcurrentHashMap;
import java.util.concurrent.Executor;
import java.util.concurrent.SynchronousQueue;
import java.util.concurrent.ThreadPoolExecutor;
import java.util.concurrent.TimeUnit;
import java.util.concurrent.atomic.AtomicBoolean;
import java.util.concurrent.locks.ReentrantLock;

/**
 * A store's place in the line in which who writes to a file of SQLite's stands, in any language: first the threads of this process, and then, for the
 * system's lock on {@code FILE-line} by {@code flock}, which a killed process leaves. SQLite's own wait sleeps longer and longer, and is unfair. The
 * file stays open until the line is closed, and while a thread has its turn.
 */
final class Line implements AutoCloseable {
    private static final ConcurrentHashMap<String, ReentrantLock> TURNS = new ConcurrentHashMap<>();
    /** Waits for the system's lock in others' places, by threads that stay for a second after that. */
    private static final Executor WAITS = new ThreadPoolExecutor(0, Integer.MAX_VALUE, 1, TimeUnit.SECONDS, new SynchronousQueue<>(), Line::daemon);

    private final String path;
    private final ReentrantLock turn;
    /** The file, or -1 where it isn't open; whether a thread has it; and whether it is to be closed then. Under this object's lock. */
    private int file = -1;
    private boolean isUsed, isClosed;

    static {
        Native.load();
    }

    /** That of one who writes to this file. */
    Line(String path) {
        this.path = path;
        turn = TURNS.computeIfAbsent(path, it -> new ReentrantLock(true));
    }

    private static Thread daemon(Runnable run) {
        Thread made = new Thread(run, "cf-line");
        made.setDaemon(true);
        return made;
    }

    /** Takes this thread's turn to write, once it comes, which {@link #unlockTurn} ends. {@code Unknown} where others have it for so many seconds. */
    void lockWithin(int seconds) {
        try {
            if (!turn.tryLock() && !turn.tryLock(seconds, TimeUnit.SECONDS)) {
                throw new StoreException.Unknown(path + ": a thread of this process has the file for " + seconds + " s", null);
            }
        } catch (InterruptedException interrupted) {
            Thread.currentThread().interrupt();
            throw new StoreException.Unknown(path + ": interrupted in the line", interrupted);
        }
        try {
            int its = openIfUnused();
            if (!lock(its, false)) {
                await(its, seconds);
            }
        } catch (RuntimeException | Error fault) {
            closeIfUnused();
            turn.unlock();
            throw fault;
        }
    }

    /** Ends this thread's turn. */
    void unlockTurn() {
        try {
            unlock(file);
        } finally {
            closeIfUnused();
            turn.unlock();
        }
    }

    /** The file, which is opened if it isn't open. */
    private synchronized int openIfUnused() {
        if (file < 0) {
            int opened = open((path + "-line").getBytes(StandardCharsets.UTF_8));
            if (opened < 0) {
                throw new StoreException.Unknown(path + "-line can't be opened: error " + -opened + " of the system", null);
            }
            file = opened;
        }
        isUsed = true;
        return file;
    }

    private synchronized void closeIfUnused() {
        isUsed = false;
        if (isClosed) {
            close();
        }
    }

    /** The file is another thread's by now, which waits for its lock and closes it. */
    private synchronized void forget() {
        file = -1;
    }

    /** A wait for the system's lock can't be given up, and who has it may have been stopped: a thread waits in this one's place. */
    private void await(int its, int seconds) {
        BlockingQueue<Boolean> has = new ArrayBlockingQueue<>(1);
        AtomicBoolean isOver = new AtomicBoolean(); // whoever sets it second closes the file, or has the lock
        try {
            WAITS.execute(() -> {
                boolean is = lock(its, true);
                if (isOver.compareAndSet(false, true)) {
                    has.add(is);
                } else {
                    close(its);
                }
            });
        } catch (OutOfMemoryError noThread) {
            throw new StoreException.Unknown(path + ": another process has the file, and no thread can wait for it", noThread);
        }
        Boolean is = null;
        InterruptedException interrupted = null;
        try {
            is = has.poll(seconds, TimeUnit.SECONDS);
        } catch (InterruptedException caught) {
            Thread.currentThread().interrupt();
            interrupted = caught;
        }
        if (is == null && isOver.compareAndSet(false, true)) {
            forget();
            throw new StoreException.Unknown(path + ": another process has the file for " + seconds + " s", interrupted);
        }
        while (is == null) { // (it is just coming)
            Thread.yield();
            is = has.poll();
        }
        if (!is) {
            throw new StoreException.Unknown(path + "-line can't be locked", null);
        }
    }

    /** Closes the file, once no thread has its turn. */
    @Override
    public synchronized void close() {
        isClosed = true;
        if (!isUsed && file >= 0) {
            close(file);
            file = -1;
        }
    }

    /** A file, which is made if it isn't there; or the system's error, negated. */
    private static native int open(byte[] path);

    /** Locks a file for one alone, and waits for that if it is told to. Whether it is locked. */
    private static native boolean lock(int file, boolean waits);

    private static native void unlock(int file);

    /** Closes a file, which unlocks it. */
    private static native void close(int file);
}
