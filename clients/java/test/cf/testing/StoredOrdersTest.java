package cf.testing;

import static cf.service.Checks.fits;
import static cf.service.Checks.has;
import static cf.service.Checks.is;
import static cf.testing.Planted.SECONDS_ENOUGH;
import static java.util.concurrent.TimeUnit.SECONDS;

import cf.service.RequestHistory;
import cf.store.Functions;
import cf.store.RemoteException;
import cf.store.StoreException;
import cf.store.StoredRequest;
import cf.store.StoredStage;
import cf.testing.Answer.Bound;
import java.sql.Connection;
import java.sql.PreparedStatement;
import java.sql.SQLException;
import java.sql.Statement;
import java.sql.Types;
import java.util.ArrayList;
import java.util.Arrays;
import java.util.Collection;
import java.util.Collections;
import java.util.HashMap;
import java.util.HashSet;
import java.util.List;
import java.util.Map;
import java.util.Set;
import java.util.TreeSet;
import java.util.concurrent.TimeoutException;
import java.util.function.Consumer;
import java.util.function.Function;
import java.util.stream.Collectors;

/** What does the kit find in services over a store, what may go wrong there, and what does it say of {@code StoreService}? */
public final class StoredOrdersTest {
    private static final int MOST = 500;
    /** By which each planted fault has to be found: so many are tried in a tenth of a second. */
    private static final int MOST_TO_FIND = 20;

    private StoredOrdersTest() {}

    @SafeVarargs
    private static <T> Set<T> set(T... of) {
        Set<T> found = new HashSet<>();
        for (T it : of) {
            found.add(it);
        }
        return found;
    }

    private static Orders enough(Scenario scenario) {
        return Orders.of(scenario).seconds(SECONDS_ENOUGH).most(MOST);
    }

    private static void isSound(Scenario scenario) {
        Planted.isSound("it", enough(scenario).run());
    }

    private static String why(Scenario scenario) {
        List<Failure> failed = enough(scenario).run().failed();
        return failed.isEmpty() ? "nothing" : failed.get(0).why();
    }

    /** All ends of a scenario, which gives what tells one. */
    private static Set<Object> ends(Function<World, Object[]> test, Function<Object[], Object> end) {
        Object[][] made = new Object[1][];
        Report report = enough(world -> made[0] = test.apply(world)).ends(world -> end.apply(made[0])).run();
        Planted.isSound("it", report);
        return report.ends().keySet();
    }

    private static List<String> texts(Failure failure) {
        return failure.told().stream().map(Failure.ToldMove::text).collect(Collectors.toList());
    }

    private static Failure failure(String name) {
        return StoredServices.ALL.faulty(name).orders().run().failed().get(0);
    }

    // Services.

    public static void plantedFaults() {
        StoredServices.ALL.areFound(12, MOST_TO_FIND);
    }

    public static void soundServices() {
        StoredServices.ALL.areSound(MOST);
    }

    // What a failure tells.

    public static void stories() {
        Failure failure = failure("charged again");
        is(texts(failure), Arrays.asList("worker 1 looks what is new", "worker 1 puts to order 17: charge is claimed", "worker 1 calls charge",
                "worker 1 is killed", "worker 2 takes worker 1 for gone", "worker 2 puts to order 17: charge is failed",
                "worker 2 puts to order 17: charge again is claimed", "worker 2 calls charge"));
        is(failure.told().get(5).settled(), Collections.singletonList("charge ends: Abandoned: the worker that ran charge is gone, and it may have run"));
        has(failure.toString(), "It is so if 4 (worker 1 is killed) comes before 3 (worker 1 calls charge).");
        is(texts(failure("own word for another's")).contains(
                "a client puts to lock: owner is completed; it stands, and the store is silent for a minute"), true);
    }

    /** A failure has the histories of requests in memory, then of those in the store, by all words that stand there. */
    public static void histories() throws Exception {
        Failure failure = failure("charged again");
        is(failure.histories().size(), 1);
        is(failure.account(), failure.histories().get(0).account());
        fits(failure.account());
        String gone = " Abandoned: the worker that ran charge is gone, and it may...";
        is(failure.histories().get(0).toString().replaceAll("(?m)^ +", ""), String.join("\n", "order 17: 5 events, 2 stages",
                "the shop attaches 0 charge, supply", "the shop attaches 1 charge again, exceptionally behind 0 charge",
                "worker 1 claims 0 charge and calls it", "worker 2 fails 0 charge with" + gone, "0 charge ends:" + gone,
                "worker 2 claims 1 charge again and calls it with" + gone, ""));
        Failure both = enough(world -> {
            Functions functions = new Functions().with("load", 1, () -> 5);
            world.store().worker("one", functions).request("in the store").supply("load");
            world.service().request("in memory").promise();
            world.atEnd(() -> false, "it fails");
        }).run().failed().get(0);
        is(both.histories().stream().map(it -> it.line().split(":")[0]).collect(Collectors.toList()), Arrays.asList("in memory", "in the store"));
        for (RequestHistory history : both.histories()) {
            fits(history.account());
        }
        for (String name : Arrays.asList("goes on without its claim", "done elsewhere", "own word for another's", "told before it came")) {
            fits(failure(name).account());
        }
    }

    // What each bound lets go wrong.

    private static Object completed(StoredStage stage) {
        try {
            return stage.complete(7);
        } catch (StoreException.Unknown silent) {
            return "unknown";
        }
    }

    /** What a client's call comes to in all orders, with what stands then. */
    private static Set<Object> tried(Consumer<WorldStore> faults) {
        return ends(world -> {
            WorldStore store = world.store();
            faults.accept(store);
            List<Object> told = new ArrayList<>();
            StoreProcess shop = store.process("shop");
            StoredStage stage = shop.request("order").promise("promise");
            shop.calls("client", () -> told.add(completed(stage)));
            return new Object[] {store, told};
        }, made -> made[1] + " " + ((WorldStore) made[0]).outcomes());
    }

    public static void answers() {
        Set<String> done = set("[true] [order: promise ends: 7]");
        is(tried(store -> {}), done);
        is(tried(store -> store.lost(1)), done);
        is(tried(store -> store.unanswered(1)), done);
        is(tried(store -> store.late(1)), done);
        is(ends(world -> {
            WorldStore store = world.store().lost(1);
            List<Object> seen = new ArrayList<>();
            StoreProcess shop = store.process("shop");
            StoredStage stage = shop.request("order").promise("promise");
            shop.calls("client", () -> completed(stage));
            world.calls("another", () -> seen.add(store.remaining(Bound.LOST) + " " + store.isSettled("order", "promise")));
            return new Object[] {seen};
        }, made -> made[0].toString()), set("[1 false]", "[1 true]", "[0 false]", "[0 true]"));
        is(tried(store -> store.silent(1)), set("[true] [order: promise ends: 7]", "[unknown] [order: promise ends: 7]", "[unknown] [order: promise is open]"));
    }

    /** How often each thing may go wrong, and that it does so often. */
    public static void bounds() {
        is(ends(world -> {
            WorldStore store = world.store().unanswered(2);
            StoreProcess shop = store.process("shop");
            StoredStage stage = shop.request("order").promise("promise");
            shop.calls("client", () -> completed(stage));
            return new Object[] {store};
        }, made -> ((WorldStore) made[0]).remaining(Bound.UNANSWERED)), set(0, 1, 2));
    }

    /** A put that was given up comes later, or finds its place taken. */
    public static void late() {
        Function<World, Object[]> test = world -> {
            WorldStore store = world.store().silent(1).late(1);
            StoreProcess shop = store.process("shop");
            StoredStage stage = shop.request("order").promise("promise");
            shop.calls("client", () -> {
                if (completed(stage).equals("unknown")) {
                    stage.fail(new IllegalStateException("x"));
                }
            });
            return new Object[] {store};
        };
        is(ends(test, made -> ((WorldStore) made[0]).outcomes().get(0)), set("order: promise ends: 7", "order: promise ends: IllegalStateException: x"));
        Failure failure = enough(world -> {
            WorldStore store = (WorldStore) test.apply(world)[0];
            world.atEnd(() -> !store.hasLanded(), "no put comes late");
        }).run().failed().get(0);
        is(texts(failure).stream().anyMatch(it -> it.startsWith("the put that was on its way comes: puts to order: ")), true);
    }

    /** Others move before an answer comes, and before its caller's next line. */
    public static void between() {
        Object[] log = new Object[1];
        Scenario test = world -> {
            List<String> its = new ArrayList<>();
            log[0] = its;
            WorldStore store = world.store();
            StoreProcess shop = store.process("shop");
            StoredStage stage = shop.request("order").promise("promise");
            shop.calls("client", () -> its.add("told " + stage.complete(1)));
            world.calls("another", () -> its.add("seen " + store.isSettled("order", "promise")));
        };
        Report report = enough(test).ends(world -> String.valueOf(log[0])).run();
        Planted.isSound("it", report);
        is(report.ends().keySet(), set("[seen false, told true]", "[seen true, told true]", "[told true, seen true]"));
        is(enough(test).unreduced().ends(world -> String.valueOf(log[0])).run().ends().keySet(), report.ends().keySet());
    }

    /** A killed process does nothing more. */
    public static void killed() {
        is(ends(world -> {
            List<String> log = new ArrayList<>();
            Functions functions = new Functions().with("slow", 1, () -> {
                log.add("begun");
                world.point();
                log.add("ended");
                return null;
            });
            WorldStore store = world.store().killed(1);
            store.worker("one", functions).request("order").supply("slow");
            store.process("shop").open("order");
            return new Object[] {log, store};
        }, made -> made[0] + " " + ((WorldStore) made[1]).outcomes().get(0).substring(0, 19)), set("[begun, ended] order: slow ends: n",
                "[] order: slow ends: A", "[] order: slow is open", "[begun] order: slow ends: A", "[begun, ended] order: slow ends: A"));
    }

    /** Who attaches to a closed request and is killed leaves none that is closed: another process calls the function. */
    public static void attached() {
        is(ends(world -> {
            Functions functions = new Functions().with("load", 1, () -> 7);
            WorldStore store = world.store().killed(1);
            StoreProcess shop = store.process("shop", functions).workers(0);
            StoredRequest request = shop.request("order");
            request.promise("order").complete(1);
            request.end();
            shop.calls("attaches", () -> request.supply("load"));
            store.worker("one", functions);
            store.worker("two", functions);
            return new Object[] {store};
        }, made -> String.join("; ", ((WorldStore) made[0]).outcomes()).replaceAll("ends: Abandoned.*", "ends: Abandoned")), set(
                "order: order ends: 1", "order: order ends: 1; order: load ends: 7", "order: order ends: 1; order: load ends: Abandoned"));
    }

    /** Of two sources a further try has the one that the first try had: the first that was settled, or that was named if both were settled before. */
    public static void triesAgain() {
        is(calledAgain(false), set("[7, 7]", "[7]"));
        is(calledAgain(true), set("[8, 8]", "[8]"));
    }

    private static Set<Object> calledAgain(boolean isBefore) {
        return ends(world -> {
            List<Object> called = new ArrayList<>();
            Functions functions = new Functions().with("load", 1, number -> called.add(number));
            WorldStore store = world.store().killed(1);
            StoredRequest request = store.process("shop", functions).workers(0).request("order");
            StoredStage one = request.promise("one"), two = request.promise("two"), stage = isBefore ? one.either(two, "load") : null;
            is(isBefore ? two.complete(8) : two.fail(new RemoteException("Declined", "no")), true);
            is(one.complete(7), true);
            (isBefore ? stage : one.either(two, "load")).again(1);
            store.worker("one", functions);
            store.worker("two", functions);
            return new Object[] {called};
        }, made -> made[0].toString());
    }

    /** A process that is there may be taken for gone. */
    public static void slow() {
        is(ends(world -> {
            Functions functions = new Functions().with("load", 1, () -> 1);
            WorldStore store = world.store().slow(1);
            store.worker("one", functions);
            store.process("shop", functions).workers(0).request("order").supply("load");
            return new Object[] {store};
        }, made -> ((WorldStore) made[0]).outcomes().get(0).substring(0, 19)), set("order: load ends: 1", "order: load ends: A"));
    }

    public static void clocks() {
        isSound(world -> {
            WorldStore store = world.store();
            is(store.process("one").now(), 0.0);
            is(store.process("two").ahead(60).now(), 60.0);
        });
    }

    // What functions, callers and stages do under a search.

    public static void waits() {
        isSound(world -> {
            List<Object> got = new ArrayList<>();
            Functions functions = new Functions().with("load", 1, () -> 5);
            WorldStore store = world.store();
            store.worker("one", functions);
            StoreProcess shop = store.process("shop", functions).workers(0);
            shop.calls("client", () -> got.add(shop.request("order").supply("load").get()));
            world.atEnd(() -> got.equals(Collections.singletonList(5L)), "it is told");
        });
        is(why(world -> {
            StoreProcess shop = world.store().killed(1).process("shop");
            shop.calls("client", () -> shop.request("order").promise("a sign").get());
        }), "deadlock: client waits for a sign");
        is(ends(world -> {
            StoreProcess shop = world.store().process("shop");
            StoredStage sign = shop.request("order").promise("a sign");
            List<Object> told = new ArrayList<>();
            shop.calls("client", () -> {
                try {
                    told.add(sign.get(5, SECONDS));
                } catch (TimeoutException late) {
                    told.add("late");
                }
            });
            shop.calls("another", () -> sign.complete("there"));
            return new Object[] {told};
        }, made -> made[0].toString()), set("[there]", "[late]"));
    }

    /** A limit in the store may pass at any moment. */
    public static void limits() {
        is(ends(world -> {
            Functions functions = new Functions().with("load", 1, () -> 5);
            WorldStore store = world.store();
            store.worker("one", functions);
            store.process("shop", functions).workers(0).request("order").supply("load").orTimeout(2, SECONDS);
            return new Object[] {store};
        }, made -> ((WorldStore) made[0]).outcomes().get(0)), set("order: load ends: 5", "order: load ends: TimeoutException: load took longer than 2 s"));
    }

    /** Two threads of a process run functions at the same time, and wait for its locks. */
    public static void threads() {
        Set<Integer> together = new HashSet<>();
        Report report = Orders.of(world -> {
            List<Object> ran = new ArrayList<>();
            int[] running = new int[1];
            Functions functions = new Functions().with("load", 1, number -> {
                running[0]++;
                world.point();
                together.add(running[0]--);
                return ran.add(number);
            });
            StoredRequest request = world.store().worker("one", functions).workers(2).request("order");
            request.supply("load", 1);
            request.supply("load", 2);
            world.atEnd(() -> set(1L, 2L).equals(new HashSet<>(ran)), "both are run");
        }).seconds(SECONDS_ENOUGH).most(200).run();
        is(report.failed().toString(), "[]");
        is(together, set(1, 2));
    }

    public static void faults() {
        is(why(world -> {
            Functions functions = new Functions().with("load", 1, () -> {
                throw new AssertionError("it is");
            });
            world.store().worker("one", functions).request("order").supply("load");
        }), "load threw AssertionError: it is");
        is(why(world -> world.store().process("shop").calls("client", () -> {
            throw new IllegalStateException("x");
        })), "client threw IllegalStateException: x");
        is(why(world -> world.settles(world.store().process("shop").request("order").promise("a sign"))), "a sign is never settled");
        isSound(world -> {
            Functions functions = new Functions().with("load", 1, () -> 5);
            world.settles(world.store().killed(1).worker("one", functions).request("order").supply("load"));
        });
    }

    /** What hangs on a stage is told within the move that shows it. */
    public static void heard() {
        is(ends(world -> {
            List<Object> heard = new ArrayList<>();
            WorldStore store = world.store();
            StoreProcess shop = store.process("shop"), other = store.process("other");
            shop.request("order").promise("promise").toFuture().thenAccept(heard::add);
            StoredStage its = other.open("order").stage(0);
            other.calls("client", () -> heard.add("told " + its.complete("yes")));
            return new Object[] {heard};
        }, made -> made[0].toString()), set("[yes, told true]", "[told true, yes]"));
    }

    // Transactional functions.

    private static Object write(Connection connection, Object what) throws SQLException {
        try (Statement insert = connection.createStatement()) {
            return insert.executeUpdate("insert " + what);
        }
    }

    /** What a transactional function comes to in all orders, with its effects. */
    private static Set<Object> written(Consumer<WorldStore> faults) {
        return ends(world -> {
            Functions functions = new Functions().transactional("write", 1, (connection, args) -> write(connection, args.get(0)));
            WorldStore store = world.store();
            faults.accept(store);
            store.worker("one", functions);
            store.process("shop", functions).workers(0).request("order").supply("write", 17);
            return new Object[] {store};
        }, made -> ((WorldStore) made[0]).outcomes().get(0).substring(0, 20) + " " + ((WorldStore) made[0]).effects());
    }

    /** The effect stands where the finish does, and only there. */
    public static void transactions() {
        String done = "order: write ends: 1 [insert 17]", abandoned = "order: write ends: A []", open = "order: write is open []";
        for (Consumer<WorldStore> faults : Arrays.<Consumer<WorldStore>>asList(store -> {}, store -> store.lost(1), store -> store.unanswered(1),
                store -> store.late(1), store -> store.silent(1))) {
            is(written(faults), set(done));
        }
        is(written(store -> store.killed(1)), set(done, abandoned, open));
        is(written(store -> store.slow(1)), set(done, abandoned));
        is(written(store -> {
            store.killed(1).late(1);
            store.process("two").takesAll();
        }), set(done, abandoned, open));
        is(ends(world -> {
            Functions functions = new Functions().transactional("write", 1, (connection, args) -> {
                write(connection, 17);
                throw new IllegalStateException("x");
            });
            WorldStore store = world.store().unanswered(1);
            store.worker("one", functions).request("order").supply("write");
            return new Object[] {store};
        }, made -> ((WorldStore) made[0]).outcomes() + " " + ((WorldStore) made[0]).effects()), set("[order: write ends: IllegalStateException: x] []"));
    }

    /** A commit that is on its way keeps its place, so it comes before all others' puts, also where its process is killed meanwhile. */
    public static void lateCommits() {
        List<Failure> all = enough(world -> {
            Functions functions = new Functions().transactional(WRITE, 1, (connection, args) -> StoredChecks.write(connection, WRITE));
            WorldStore store = world.store().late(1).killed(1);
            store.worker("one", functions).request("order").supply(WRITE);
            store.worker("two", functions);
            world.atEnd(() -> StoredChecks.effectsStand(store), "effects stand where their finishes do");
            world.atEnd(() -> false, "each order is looked at");
        }).asFound().failures(MOST).run().failed();
        String commits = "one commits, and puts to order: write by connection is finished; it is on its way, and no answer comes";
        String comes = "the commit that was on its way comes: puts to order: write by connection is finished";
        List<List<String>> late = all.stream().map(StoredOrdersTest::texts).filter(told -> told.contains(commits)).collect(Collectors.toList());
        is(late.stream().allMatch(told -> told.contains(comes)), true);
        is(late.stream().anyMatch(told -> told.contains("two takes one for gone") && told.indexOf("one is killed") < told.indexOf(comes)), true);
        is(all.stream().map(Failure::why).collect(Collectors.toSet()), set("each order is looked at"));
    }

    /** While a transaction has its place, others wait with their puts to its request. */
    public static void places() {
        isSound(world -> {
            List<String> log = new ArrayList<>();
            Functions functions = new Functions().transactional("write", 1, (connection, args) -> {
                log.add("behind the promise: " + world.store().isSettled("order", "promise"));
                return write(connection, 17);
            });
            WorldStore store = world.store();
            store.worker("one", functions);
            StoreProcess shop = store.process("shop", functions).workers(0);
            StoredRequest request = shop.request("order");
            request.supply("write");
            StoredStage promise = request.promise("promise");
            shop.calls("client", () -> promise.complete(7));
            world.check(() -> !log.contains("behind the promise: false") || !store.isSettled("order", "promise") || store.effects().size() == 1,
                    "nobody puts between the call and the commit");
            world.atEnd(() -> store.effects().size() == 1, "it is written once");
        });
        for (boolean ofProcess : new boolean[] {true, false}) {
            is(ends(world -> {
                Functions functions = new Functions().transactional(WRITE, 1, (connection, args) -> StoredChecks.write(connection, WRITE));
                WorldStore store = world.store().pure(WRITE);
                store.worker("one", functions);
                StoreProcess shop = store.process("shop", functions).workers(0);
                StoredStage stage = shop.request("order").supply(WRITE);
                if (ofProcess) {
                    shop.calls("client", stage::cancel);
                } else {
                    world.calls("client", stage::cancel);
                }
                return new Object[] {store};
            }, made -> ((WorldStore) made[0]).outcomes() + " " + ((WorldStore) made[0]).effects()), set(
                    "[order: write by connection ends: 1] [write by connection]", "[order: write by connection is cancelled] []"));
        }
    }

    /** What the connection of a world does, which has no database. */
    public static void connections() {
        List<Object> told = new ArrayList<>();
        isSound(world -> {
            told.clear();
            Functions functions = new Functions().transactional("write", 1, (connection, args) -> {
                try (Statement plain = connection.createStatement(); PreparedStatement insert = connection.prepareStatement("insert into a values (?, ?, ?)")) {
                    told.add(plain.execute("delete from a"));
                    insert.setLong(1, 5);
                    insert.setNull(2, Types.VARCHAR);
                    insert.setString(3, "x");
                    told.add(insert.executeLargeUpdate());
                    insert.clearParameters();
                    insert.setObject(2, 7L);
                    told.add(insert.executeUpdate());
                    for (Refused refused : Arrays.<Refused>asList(connection::commit, () -> plain.executeQuery("select 1"), insert::executeQuery,
                            connection::getMetaData)) {
                        told.add(refused(refused));
                    }
                }
                return null;
            });
            WorldStore store = world.store();
            store.worker("one", functions).request("order").supply("write");
            world.atEnd(() -> store.effects().toString().equals("[delete from a, insert into a values (?, ?, ?) [5, null, x], insert into a values (?, ?, ?) [null, 7]]"),
                    "all is told");
        });
        is(told, Arrays.asList(false, 1L, 1, "the finish of a transactional function ends its transaction, and not commit",
                "a world's store has no database, so its Statement only writes, and has no executeQuery",
                "a world's store has no database, so its PreparedStatement only writes, and has no executeQuery",
                "a world's store has no database, so its Connection only writes, and has no getMetaData"));
    }

    private interface Refused {
        void run() throws SQLException;
    }

    private static String refused(Refused call) {
        try {
            call.run();
        } catch (SQLException refused) {
            return refused.getMessage();
        }
        throw new AssertionError("it isn't refused");
    }

    // What StoreService promises, over small plans, whatever goes wrong once.

    private interface Plan {
        void of(StoredRequest request);
    }

    private static final String WRITE = "write" + StoredChecks.WRITES;
    private static final Map<String, Plan> PLANS = new HashMap<>();

    static {
        PLANS.put("one stage", request -> request.supply("load"));
        PLANS.put("two in a row", request -> request.supply("load").then("next"));
        PLANS.put("again", request -> request.supply("load").again(1));
        PLANS.put("transactional", request -> request.supply(WRITE));
    }

    /** A small plan that a worker or two run. */
    private static WorldStore small(World world, String plan, int workers, Bound fault) {
        Functions functions = new Functions().with("load", 1, () -> 1).with("next", 1, number -> 1)
                .transactional(WRITE, 1, (connection, args) -> StoredChecks.write(connection, WRITE));
        WorldStore store = world.store().pure("load").pure("next").pure(WRITE);
        StoredChecks.with(store, fault);
        StoreProcess one = store.worker("one", functions);
        store.worker("two", functions).workers(workers - 1);
        PLANS.get(plan).of(one.request("order"));
        world.atEnd(() -> StoredChecks.grantedOnce(store), "no claim is granted twice");
        world.atEnd(() -> StoredChecks.standsOnce(store), "a put stands once or never, and where its process was told");
        world.atEnd(() -> StoredChecks.effectsStand(store), "effects stand where their finishes do");
        world.atEnd(() -> one.isDead && workers == 1 || store.rows.reader("order").isDone(sessions(store)), "all stages are settled");
        return store;
    }

    private static Collection<Long> sessions(WorldStore store) {
        return store.processes.stream().map(it -> it.serving().session()).collect(Collectors.toSet());
    }

    public static void promises() {
        for (String plan : Arrays.asList("one stage", "again", "transactional", "two in a row")) {
            for (Bound fault : Bound.values()) {
                if (!plan.equals("two in a row") || fault == Bound.KILLED || fault == Bound.UNANSWERED) {
                    Planted.isSound(plan + ", " + fault, enough(world -> small(world, plan, 2, fault)).run());
                }
            }
        }
    }

    /** The ends are the same with and without what is left out. */
    public static void leftOut() {
        for (String plan : new TreeSet<>(PLANS.keySet())) {
            for (Bound fault : Bound.values()) {
                sameEnds(plan, 1, fault);
            }
        }
        sameEnds("one stage", 2, Bound.KILLED);
        Object[] log = new Object[1];
        Report report = enough(world -> {
            List<Object> its = new ArrayList<>();
            log[0] = its;
            Functions functions = new Functions().with("load", 1, number -> its.add(number));
            WorldStore store = world.store();
            StoreProcess one = store.process("one", functions), two = store.process("two", functions);
            one.request("first").supply("load", 1);
            two.request("second").supply("load", 2);
        }).ends(world -> String.valueOf(log[0])).run();
        Planted.isSound("both orders", report);
        is(report.ends().keySet(), set("[1, 2]", "[2, 1]"));
        is(report.orders() + report.cut() < 6, true);
    }

    private static void sameEnds(String plan, int workers, Bound fault) {
        WorldStore[] store = new WorldStore[1];
        Orders[] both = new Orders[2];
        for (int k = 0; k < 2; k++) {
            both[k] = Orders.of(world -> store[0] = small(world, plan, workers, fault)).seconds(SECONDS_ENOUGH)
                    .ends(world -> store[0].outcomes() + " " + store[0].granted());
        }
        Report reduced = both[0].run(), plain = both[1].unreduced().run();
        is(plan + ", " + fault + ": " + reduced.whole() + plain.whole(), plan + ", " + fault + ": truetrue");
        is(reduced.ends().keySet(), plain.ends().keySet());
    }

    public static void byChance() {
        for (String name : Arrays.asList("own word for another's", "done elsewhere", "charged again")) {
            is(name + StoredServices.ALL.faulty(name).orders().chance(500, 3).run().failed().isEmpty(), name + "false");
        }
    }

    /** Effects stand in the order of their commits, and these are tried in each. */
    public static void effects() {
        is(ends(world -> {
            Functions functions = new Functions().transactional("write", 1, (connection, args) -> write(connection, args.get(0)));
            WorldStore store = world.store();
            for (int number = 1; number <= 2; number++) {
                store.process("process " + number, functions).request("order " + number).supply("write", number);
            }
            return new Object[] {store};
        }, made -> ((WorldStore) made[0]).effects().toString()), set("[insert 1, insert 2]", "[insert 2, insert 1]"));
        Effect effect = new Effect("insert", Arrays.asList(1));
        for (Object other : Arrays.asList(new Effect("delete", Arrays.asList(1)), new Effect("insert", Arrays.asList(2)), "insert [1]")) {
            is(effect.equals(other) + " " + other, "false " + other);
        }
        is(effect.equals(new Effect("insert", Arrays.asList(1))), true);
    }

    /** Who looks at a stage of a process does so before and behind each change of what that knows. */
    public static void looks() {
        is(ends(world -> {
            List<String> seen = new ArrayList<>();
            WorldStore store = world.store();
            StoreProcess shop = store.process("shop");
            StoredStage own = shop.request("order").promise("promise"), theirs = store.process("another").open("order").stage(0);
            shop.calls("client", () -> own.complete(7));
            world.calls("somebody", () -> seen.add(store.isSettled("order", "promise") + " " + theirs.isDone()));
            return new Object[] {seen};
        }, made -> made[0].toString()), set("[false false]", "[true false]", "[true true]"));
    }

    /** A world tells which process has which stage, and what it was told to stand. */
    public static void granted() {
        is(ends(world -> {
            WorldStore store = world.store();
            store.worker("one", new Functions().with("load", 1, () -> 7)).request("order").supply("load");
            return new Object[] {store};
        }, made -> {
            WorldStore store = (WorldStore) made[0];
            Set<String> told = store.answered().stream().map(it -> it.process() + " " + it.request()).collect(Collectors.toSet());
            return store.granted() + " " + told;
        }), set("[one has stage 0 of order] [one order]"));
    }
}
