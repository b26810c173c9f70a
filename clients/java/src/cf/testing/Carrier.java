package cf.testing;

import java.util.ArrayDeque;
import java.util.Deque;
import java.util.concurrent.Semaphore;
import java.util.concurrent.TimeUnit;

/**
 * A thread that carries one function at a time, which may wait. One thread of a run goes on at a time: the search hands it the turn, and gets it
 * back once the function waits or has ended.
 */
final class Carrier implements Runnable {
    /** It blocks where so many looks, so long apart, find it waiting. */
    private static final int LOOKS = 8, MILLIS = 250;
    /** Those that are idle, which runs use again. */
    private static final Deque<Carrier> IDLE = new ArrayDeque<>();

    private final Semaphore turn = new Semaphore(0), back = new Semaphore(0);
    private final CarrierThread thread = new CarrierThread(this);
    private volatile Runnable job;
    private volatile boolean ends;

    /** A thread of the kit. */
    static final class CarrierThread extends Thread {
        CarrierThread(Runnable run) {
            super(run, "cf.testing");
            setDaemon(true);
        }
    }

    /** One that is idle. */
    static Carrier borrow() {
        synchronized (IDLE) {
            if (!IDLE.isEmpty()) {
                return IDLE.pop();
            }
        }
        Carrier made = new Carrier();
        made.thread.start();
        return made;
    }

    /** Gives it back. One that doesn't end is left. */
    void giveBack() {
        if (isIdle()) {
            synchronized (IDLE) {
                IDLE.push(this);
            }
        }
    }

    boolean isIdle() {
        return job == null;
    }

    /** Lets a function go until it waits or has ended. What it blocks on that isn't the world's is given back, else null. */
    String runJob(Runnable job) {
        thread.setContextClassLoader(Thread.currentThread().getContextClassLoader());
        this.job = job;
        return resume();
    }

    /** Lets the function that waits go on, as {@link #runJob} does. */
    String resume() {
        turn.release();
        try {
            for (int looks = 0; !back.tryAcquire(MILLIS, TimeUnit.MILLISECONDS);) {
                String where = blockedAt();
                looks = where == null ? 0 : looks + 1;
                if (looks == LOOKS) {
                    return where;
                }
            }
            return null;
        } catch (InterruptedException interrupted) {
            Thread.currentThread().interrupt();
            throw new IllegalStateException("the search was interrupted", interrupted);
        }
    }

    /** The innermost call that isn't the JDK's, where the thread waits. Null where it doesn't, or has yet to notice its turn. */
    private String blockedAt() {
        Thread.State state = thread.getState();
        if (state != Thread.State.WAITING && state != Thread.State.BLOCKED) {
            return null;
        }
        for (StackTraceElement each : thread.getStackTrace()) {
            String name = each.getClassName();
            if (!name.startsWith("java.") && !name.startsWith("jdk.") && !name.startsWith("sun.")) {
                return name.equals(Carrier.class.getName()) ? null
                        : new StackTraceElement(name, each.getMethodName(), each.getFileName(), each.getLineNumber()).toString();
            }
        }
        return null;
    }

    /** Called by the function: gives the turn back, and waits for the next one. */
    void waitForTurn() {
        back.release();
        turn.acquireUninterruptibly();
        if (ends) {
            throw new Leaving(Leaving.Reason.GONE);
        }
    }

    /** Ends the function that waits. One that goes on all the same is left, with its thread. */
    void stop() {
        ends = true;
        for (int k = 0; k < 100 && !isIdle() && resume() == null; k++) {
            continue;
        }
        ends = false;
        giveBack();
    }

    @Override
    public void run() {
        while (true) {
            turn.acquireUninterruptibly();
            try {
                job.run();
            } catch (Throwable told) {
                // The job tells in its own way what it throws.
            }
            Thread.interrupted();
            job = null;
            back.release();
        }
    }
}
