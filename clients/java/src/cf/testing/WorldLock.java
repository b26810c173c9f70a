package cf.testing;

import java.util.concurrent.TimeUnit;
import java.util.concurrent.locks.Condition;
import java.util.concurrent.locks.Lock;

/** A lock of a process's threads. Who waits for it lets others go on. Nobody waits for those of a process that was killed. */
final class WorldLock implements Lock {
    private final Run run;
    private final StoreProcess process;
    private Object owner;
    private int many;

    WorldLock(Run run, StoreProcess process) {
        this.run = run;
        this.process = process;
    }

    /** The thread that goes on, or the search itself. */
    private Object currentOwner() {
        return run.current() == null ? run : run.current();
    }

    @Override
    public void lock() {
        while (!tryLock()) {
            run.waitFor(new Flight.Wait("a lock", null, () -> owner == null, null), -1);
        }
    }

    @Override
    public boolean tryLock() {
        if (owner != null && owner != currentOwner() && !process.isDead) {
            return false;
        }
        owner = currentOwner();
        many++;
        return true;
    }

    @Override
    public void unlock() {
        many--;
        if (many == 0) {
            owner = null;
        }
    }

    @Override
    public void lockInterruptibly() {
        lock();
    }

    @Override
    public boolean tryLock(long time, TimeUnit unit) {
        throw new UnsupportedOperationException();
    }

    @Override
    public Condition newCondition() {
        throw new UnsupportedOperationException();
    }
}
