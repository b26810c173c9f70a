package cf.testing;

import java.util.ArrayList;
import java.util.Collections;
import java.util.List;
import java.util.Objects;
import java.util.function.Function;

/**
 * Runs a test in every order, until one fails.
 *
 * <pre>{@code
 * Orders.check(world -> { .. });                                          // an AssertionError tells the first order that fails
 * Report report = Orders.of(world -> { .. }).seconds(60).failures(5).run();
 * }</pre>
 *
 * <p>Within a test of JUnit or TestNG, {@link #check(Scenario)} is all that is needed.
 */
public final class Orders {
    /** How many orders are tried at most, and for how many seconds, if nothing is said. */
    public static final int MOST = 100_000, SECONDS = 10;

    /** Orders in turn, before some by chance; one of so many is by chance, and so much of the time; failures that are made smaller. */
    private static final int AT_FIRST = 100, PART = 10, MOST_TOLD = 20;

    private final Scenario scenario;
    private final Settings settings = new Settings();
    private int most = MOST, chance, failures = 1;
    private long seed;
    private double seconds = SECONDS;
    private String row;
    private boolean isSmaller = true, isWhole;
    private Function<World, ?> ends;

    private Orders(Scenario scenario) {
        this.scenario = Objects.requireNonNull(scenario);
    }

    /** With a scenario, which is run once for each order, and has to do the same each time. */
    public static Orders of(Scenario scenario) {
        return new Orders(scenario);
    }

    /** Runs it in every order. The first order that fails is an AssertionError, whose message is the story of it. */
    public static void check(Scenario scenario) {
        of(scenario).check();
    }

    /** How many orders are tried at most, those that are cut short among them: {@link #MOST} if nothing is said. */
    public Orders most(int orders) {
        most = orders;
        return this;
    }

    /** How long that may take: {@link #SECONDS} if nothing is said. The order that is tried then ends first. */
    public Orders seconds(double seconds) {
        this.seconds = seconds;
        return this;
    }

    /** An order that was told, which is tried alone, with the same other settings. */
    public Orders row(String row) {
        this.row = Objects.requireNonNull(row);
        return this;
    }

    /** Draws so many orders by this seed, in place of all in turn. */
    public Orders chance(int orders, long seed) {
        chance = orders;
        this.seed = seed;
        return this;
    }

    /** How many orders may fail before the search ends: 1 if nothing is said. */
    public Orders failures(int failures) {
        this.failures = failures;
        return this;
    }

    /** How many functions of executors may go on at the same time. With 0, any number. */
    public Orders workers(int workers) {
        settings.workers = workers;
        return this;
    }

    /** A function lets others go on at each change that it makes to a stage. */
    public Orders fine() {
        settings.isFine = true;
        return this;
    }

    /** Tries also the orders that can come to nothing else. */
    public Orders unreduced() {
        settings.isReduced = false;
        return this;
    }

    /** Tells failing orders as they were found, and not made smaller. */
    public Orders asFound() {
        isSmaller = false;
        return this;
    }

    /** Limits need not pass, as in {@code cf_look explore}. */
    public Orders freeClock() {
        settings.isClockFree = true;
        return this;
    }

    /** Sets the function that gives the end of an order, for {@link Report#ends}. */
    public Orders ends(Function<World, ?> ends) {
        this.ends = Objects.requireNonNull(ends);
        return this;
    }

    /** Has {@link #check()} fail, too, where not all orders could be tried. */
    public Orders whole() {
        isWhole = true;
        return this;
    }

    /** Runs it. The first orders that fail are an AssertionError, whose message is their story. Its cause is the first one's exception. */
    public void check() {
        Report report = run();
        if (!report.failed.isEmpty() || isWhole && !report.whole) {
            throw new AssertionError(report.toString(), report.failed.isEmpty() ? null : report.failed.get(0).cause());
        }
    }

    /**
     * Runs it, and reports. A fault in the test itself is an order that fails.
     *
     * @throws NotDeterministicError if the test did other things with the same choices
     */
    public Report run() {
        long began = System.nanoTime(), until = began + (long) (seconds * 1e9);
        settings.hasThreads = settings.isFine;
        Report report = searchOnCarrier(until);
        if (report == null) {
            settings.hasThreads = true;
            report = searchOnCarrier(until);
        }
        report.seconds = (System.nanoTime() - began) / 1e9;
        return report;
    }

    /** By a thread of the kit, so that a function that blocks it hangs nobody. Null where functions need threads of their own. */
    private Report searchOnCarrier(long until) {
        Report[] report = new Report[1];
        Throwable[] thrown = new Throwable[1];
        Carrier carrier = Carrier.borrow();
        String stuck = carrier.runJob(() -> {
            try {
                report[0] = search(until);
            } catch (Throwable each) {
                thrown[0] = each;
            }
        });
        carrier.giveBack();
        if (stuck != null && settings.hasThreads) {
            throw new AssertionError("the test blocks outside the world, at " + stuck);
        }
        if (thrown[0] != null && !(thrown[0] instanceof Leaving)) {
            Orders.<RuntimeException>rethrow(thrown[0]);
        }
        return report[0];
    }

    @SuppressWarnings("unchecked")
    private static <E extends Throwable> void rethrow(Throwable thrown) throws E {
        throw (E) thrown;
    }

    private Report search(long until) {
        Runner runner = new Runner(scenario, settings);
        Report report = new Report();
        if (row != null) {
            RunResult result = runner.replay(Move.parseRow(row));
            report.orders = 1;
            report.failed = !result.hasFailed() ? report.failed
                    : Collections.singletonList(result.run.isStuck ? result.failure() : withDecidingPairs(runner, result.failure()));
            return report;
        }
        if (chance > 0) {
            new Chance(runner, report, seed).search(chance, until, failures);
        } else {
            searchAll(runner, report, until);
        }
        report.failed = retell(runner, report.failed);
        return report;
    }

    /**
     * Some orders in turn, and if these aren't all, some by chance: what needs the last of many to come first is met late by the search in turn,
     * and soon by chance.
     */
    private void searchAll(Runner runner, Report report, long until) {
        Search search = new Search(runner, report, ends);
        int first = Math.min(AT_FIRST, most);
        search.search(first, until, failures);
        if (report.whole || report.failed.size() >= failures || most <= first) {
            return;
        }
        long now = System.nanoTime();
        new Chance(runner, report, seed).search(most / PART, now + (until - now) / PART, failures);
        search.search(most - report.byChance - first, until, failures);
    }

    private List<Failure> retell(Runner runner, List<Failure> failed) {
        List<Failure> told = new ArrayList<>();
        for (Failure failure : failed) {
            RunResult result = runner.replay(failure.moves);
            Failure again = result.failure();
            if (!isSmaller || result.run.isStuck) {
                told.add(again);
            } else if (told.size() < MOST_TOLD) {
                told.add(withDecidingPairs(runner, Reducer.reduce(runner, again)));
            }
        }
        return told;
    }

    private static Failure withDecidingPairs(Runner runner, Failure failure) {
        failure.pairs = Reducer.decidingPairs(runner, failure);
        return failure;
    }
}
