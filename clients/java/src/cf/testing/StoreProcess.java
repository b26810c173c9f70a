package cf.testing;

import cf.internal.Host;
import cf.internal.Serving;
import cf.internal.WatchedServices;
import cf.store.Functions;
import cf.store.Store;
import cf.store.StoreService;
import cf.store.StoredRequest;
import cf.testing.Footprint.Access;
import java.util.ArrayList;
import java.util.HashSet;
import java.util.List;
import java.util.Objects;
import java.util.Set;

/**
 * A process of a world: a service over the world's store, whose threads, clock and chance are the search's. It dies where the search kills it.
 * {@link WorldStore#process} and {@link WorldStore#worker} make one. Its options are set before it is used.
 *
 * <p>What a test itself asks of it is a part of the first move, and always answered. What {@link #calls} is given, and what its own threads do, is
 * a move for each call of the store.
 */
public final class StoreProcess {
    final String name;
    final int number;
    /** What its moves touch. */
    final String thing;
    final ProcessHost host;
    /** What its threads are to do, and what its test has it call. */
    final List<Work> queue = new ArrayList<>(), callers = new ArrayList<>();
    /** The requests in which it couldn't do something. */
    final Set<String> stuck = new HashSet<>();
    int workers = 1, jobs;
    long lease = 10_000_000_000L;
    boolean takesAll, isDead;
    /** Of which limit it is told that it has passed; or null. */
    Store.Timer due;
    private final WorldStore world;
    private final Functions functions;
    private Serving serving;

    /** What a thread of a process is to do: something for a request, or what a test says. */
    static final class Work {
        final int number;
        /** The request, or what the caller is called. */
        final String name;
        /** Null of what a test says. */
        final Host.Job job;
        final Runnable act;

        Work(int number, String name, Host.Job job, Runnable act) {
            this.number = number;
            this.name = name;
            this.job = job;
            this.act = act;
        }
    }

    StoreProcess(WorldStore world, int number, String name, Functions functions) {
        this.world = world;
        this.number = number;
        this.name = Objects.requireNonNull(name);
        this.functions = Objects.requireNonNull(functions);
        thing = "process " + number;
        host = new ProcessHost(world, this);
    }

    /** How many of its threads run functions: 1 if nothing is said. With 0 it runs none. */
    public StoreProcess workers(int workers) {
        checkUnused();
        this.workers = workers;
        return this;
    }

    /** It works on all requests that are open in the store, and not only on those that were opened here. */
    public StoreProcess takesAll() {
        checkUnused();
        takesAll = true;
        return this;
    }

    /** By how many seconds its clock is ahead of the world's. */
    public StoreProcess ahead(double seconds) {
        checkUnused();
        host.clock = (long) (seconds * 1e9);
        return this;
    }

    /** Its lease, in seconds: 10 if nothing is said. */
    public StoreProcess lease(double seconds) {
        checkUnused();
        lease = (long) (seconds * 1e9);
        return this;
    }

    private void checkUnused() {
        if (serving != null) {
            throw new IllegalStateException("it is used already");
        }
    }

    Serving serving() {
        if (serving == null) {
            serving = WatchedServices.stores().service(new ProcessStore(world, this), functions, workers, lease, takesAll, host);
            world.rows.memory.beat(serving.session());
            world.rows.memory.nameSession(serving.session(), name);
        }
        return serving;
    }

    /** Its service. */
    public StoreService service() {
        return serving().service();
    }

    /** As of {@link StoreService}. */
    public StoredRequest request(String name) {
        return service().request(name);
    }

    /** As of {@link StoreService}. */
    public StoredRequest open(String name) {
        return service().open(name);
    }

    /**
     * Has a thread of this process call something, at any moment. It may put and wait, and each call of the store that it makes is a move. What it
     * throws fails the order.
     *
     * @param name what is told of it
     */
    public void calls(String name, World.Act act) {
        Objects.requireNonNull(act);
        world.touch(thing, Access.CHANGES);
        callers.add(new Work(jobs++, Objects.requireNonNull(name), null, () -> world.run.runOrFail(act, name)));
    }

    /** The seconds of its own clock, which is the world's and what it is ahead of that. */
    public double now() {
        world.touch(thing, Access.READS);
        return host.nanoTime() / 1e9;
    }

    /** What moves call it. */
    int key() {
        return Move.PROCESS - number;
    }

    boolean worksOn(String request) {
        return takesAll || serving().hasRequest(request);
    }
}
