package cf.testing;

import cf.service.Service;
import cf.service.Stage;
import cf.store.StoredStage;
import java.util.ArrayList;
import java.util.Arrays;
import java.util.Collections;
import java.util.List;
import java.util.Objects;
import java.util.concurrent.CompletableFuture;
import java.util.concurrent.Executor;
import java.util.function.BooleanSupplier;
import java.util.function.Consumer;

/**
 * One run of a test. The search decides when functions are called, what arrives, and when limits pass.
 *
 * <p>The code of the test itself is the first move. Here it says what may happen between later moves.
 */
public final class World {
    private final Run run;

    /** Something that is done. */
    @FunctionalInterface
    public interface Act {
        /** Does it. */
        void run() throws Exception;
    }

    World(Run run) {
        this.run = run;
    }

    /** A service whose functions the search calls, and whose limits it lets pass. */
    public Service service() {
        return run.service;
    }

    /** An executor whose tasks the search runs, each at any moment. */
    public Executor executor() {
        return run;
    }

    /** A stage of the world outside that gets a value at any moment. A service takes it as any other stage: {@code request.adopt(..)}. */
    public <T> Stage<T> arrives(T value, String name) {
        return addArrival(name, Collections.singletonList(new Arrival.Way(value, null, false)));
    }

    /** One that gets a value at any moment, or fails in other orders. */
    public <T> Stage<T> arrivesOrFails(T value, Throwable error, String name) {
        return addArrival(name, Arrays.asList(new Arrival.Way(value, null, false), new Arrival.Way(null, Objects.requireNonNull(error), false)));
    }

    /** One that gets one of these values at any moment. Each is tried. */
    @SafeVarargs
    public final <T> Stage<T> oneOf(String name, T... values) {
        List<Arrival.Way> ways = new ArrayList<>();
        for (T value : values) {
            ways.add(new Arrival.Way(value, null, false));
        }
        return addArrival(name, ways);
    }

    /** One that fails at any moment. */
    public <T> Stage<T> fails(Throwable error, String name) {
        return addArrival(name, Collections.singletonList(new Arrival.Way(null, Objects.requireNonNull(error), false)));
    }

    /** One that gets a value at any moment, or never. */
    public <T> Stage<T> may(T value, String name) {
        return addArrival(name, Arrays.asList(new Arrival.Way(value, null, false), new Arrival.Way(null, null, true)));
    }

    private <T> Stage<T> addArrival(String name, List<Arrival.Way> ways) {
        return run.addArrival(Objects.requireNonNull(name), ways);
    }

    /** Another caller, by the name by which orders tell it. */
    public Caller caller(String name) {
        Caller caller = new Caller(Objects.requireNonNull(name));
        run.callers.add(caller);
        return caller;
    }

    /** Another caller's one call: see {@link Caller#calls(Act)}. */
    public void calls(String name, Act act) {
        caller(name).calls(act);
    }

    /** Another caller's call of one method of a stage: see {@link Caller#calls(Stage, Consumer)}. */
    public <T> void calls(String name, Stage<T> stage, Consumer<? super Stage<T>> call) {
        caller(name).calls(stage, call);
    }

    /**
     * Checks a condition between any two moves.
     *
     * @param holds says whether it does. It may read stages and what functions change, and must change nothing
     * @param text the condition in words
     */
    public void check(BooleanSupplier holds, String text) {
        run.checks.add(new Run.Check(Objects.requireNonNull(holds), text));
    }

    /** Checks a condition at the end of each order. */
    public void atEnd(BooleanSupplier holds, String text) {
        run.endChecks.add(new Run.Check(Objects.requireNonNull(holds), text));
    }

    /** These have to be settled once nothing comes any more. */
    public void settles(CompletableFuture<?>... futures) {
        run.settling.addAll(Arrays.asList(futures));
    }

    /** These have to be settled once nothing comes any more, as their processes see them. One that was killed sees nothing more. */
    public void settles(StoredStage... stages) {
        run.settlingStored.addAll(Arrays.asList(stages));
    }

    /**
     * Rows in memory that processes share, as {@link cf.store.StoreService} has them. It says what may go wrong, and makes the processes. A world
     * has one.
     */
    public WorldStore store() {
        return run.store();
    }

    /** Within a function: others may go on here. Without it a function is one move up to where it waits. */
    public void point() {
        run.letOthersGoOn();
    }

    /** Within a function: one of these values. Each is tried, so a function can stand for what answers in several ways. */
    @SafeVarargs
    @SuppressWarnings({"varargs", "unchecked"})
    public final <T> T choice(T... values) {
        return (T) run.waitFor("a choice", null, () -> true, -1, values.clone());
    }

    /**
     * A stage whose function neither reads nor changes what other functions change. It is given back. The mark is a promise: nothing checks
     * it. So is {@link #touches}.
     */
    public <T> Stage<T> pure(Stage<T> stage) {
        return touches(stage);
    }

    /**
     * A stage whose function shares with others no more than what has these names. Functions without a mark are taken to share everything
     * among one another, and nothing with what has a mark. So all functions that share a thing have to name it, or none may have a mark.
     */
    public <T> Stage<T> touches(Stage<T> stage, String... names) {
        run.mark(stage, names.clone());
        return stage;
    }

    /** The outcome of each stage of each request, as {@code cf run} prints it, to compare the ends of orders. */
    public List<String> outcomes() {
        return run.outcomes();
    }
}
