package cf.testing;

import cf.internal.Host;
import cf.internal.WatchedServices;
import cf.store.StoreException;
import cf.testing.Footprint.Access;
import java.util.Random;
import java.util.concurrent.locks.Lock;
import java.util.function.BooleanSupplier;
import java.util.function.Supplier;

/** Time, chance, locks and threads of a process, which are the search's. */
final class ProcessHost extends Host {
    /** Of its own clock, in nanoseconds. */
    long clock;
    private final WorldStore world;
    private final StoreProcess process;
    private final Random random;

    ProcessHost(WorldStore world, StoreProcess process) {
        this.world = world;
        this.process = process;
        random = new Random(process.number);
    }

    @Override
    public long nanoTime() {
        return clock;
    }

    /** What comes next is a move in any case. */
    @Override
    public void sleep(long millis) {}

    @Override
    public long randomBits(int bits) {
        return random.nextLong() >>> 64 - bits;
    }

    @Override
    public Lock newLock() {
        return new WorldLock(world.run, process);
    }

    /** Looks are moves, and threads begin with those. */
    @Override
    public void startThreads(int threads, Runnable looks) {}

    @Override
    public void execute(Job job, String request, Runnable act) {
        process.queue.add(new StoreProcess.Work(process.jobs++, request, job, act));
    }

    /** Threads take nothing more: the service says so. */
    @Override
    public void shutDown() {}

    @Override
    public Object call(String function, FunctionCall call) throws Throwable {
        return world.call(process, function, call);
    }

    @Override
    public void rethrowIfRunEnds(Throwable thrown) {
        if (thrown instanceof Leaving) {
            throw (Leaving) thrown;
        }
    }

    @Override
    public void warn(String text, String request, Throwable thrown) {
        rethrowIfRunEnds(thrown);
        if (thrown != null && !(thrown instanceof StoreException)) {
            world.run.fail(process.name + ", " + text + ": " + Run.text(thrown), thrown);
        }
        if (!request.isEmpty()) {
            process.stuck.add(request);
        }
    }

    @Override
    public void warnBroken(String text, boolean isDropped) {
        if (!isDropped) {
            world.run.fail(process.name + " can't go on: " + text);
        }
    }

    @Override
    public void noteAnswer(String request, int place, long word, int answer) {
        world.answeredWords.add(new WorldStore.AnsweredWord(process.name, request, place, word));
        int claimed = WatchedServices.stores().claimedStage(word);
        if (claimed >= 0 && answer == 0) {
            world.grantedClaims.add(new WorldStore.GrantedClaim(process.name, request, claimed));
        }
    }

    @Override
    public boolean takesWordsAsBeats() {
        return false;
    }

    @Override
    public void noteLook() {
        world.touch(process.thing, Access.READS);
    }

    @Override
    public boolean awaitSettled(Supplier<String> name, BooleanSupplier isSettled, long nanos) {
        noteLook();
        if (!isSettled.getAsBoolean() && nanos != 0) {
            world.run.waitFor(new Flight.Wait(name.get(), process.thing, isSettled, null), nanos);
        }
        return true;
    }

    @Override
    public void wake(boolean isHeard, Runnable act) {
        if (isHeard) {
            world.run.callUserCode(act);
        } else {
            act.run();
        }
    }
}
