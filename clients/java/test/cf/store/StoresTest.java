package cf.store;

import static cf.service.Checks.is;
import static cf.service.Checks.thrown;
import static cf.service.Checks.until;

import cf.internal.Host;
import cf.internal.Words;
import cf.service.Request;
import java.io.File;
import java.io.IOException;
import java.lang.module.ModuleDescriptor;
import java.lang.module.ModuleFinder;
import java.lang.reflect.Constructor;
import java.lang.reflect.Executable;
import java.lang.reflect.Field;
import java.lang.reflect.InvocationTargetException;
import java.lang.reflect.Member;
import java.lang.reflect.Modifier;
import java.lang.reflect.Proxy;
import java.net.URI;
import java.nio.charset.StandardCharsets;
import java.nio.file.Files;
import java.nio.file.Path;
import java.sql.Connection;
import java.sql.DriverManager;
import java.sql.SQLException;
import java.sql.Statement;
import java.util.ArrayList;
import java.util.Arrays;
import java.util.Collections;
import java.util.HashMap;
import java.util.LinkedHashMap;
import java.util.List;
import java.util.Map;
import java.util.Set;
import java.util.TreeSet;
import java.util.concurrent.CancellationException;
import java.util.concurrent.ConcurrentHashMap;
import java.util.concurrent.CountDownLatch;
import java.util.concurrent.ExecutionException;
import java.util.concurrent.TimeUnit;
import java.util.concurrent.TimeoutException;
import java.util.concurrent.atomic.AtomicBoolean;
import java.util.concurrent.atomic.AtomicInteger;
import java.util.function.BiFunction;
import java.util.jar.JarEntry;
import java.util.jar.JarFile;
import java.util.stream.Collectors;

/** Requests in a file of SQLite's, for which a driver of JDBC's has to be on the class path; and JSON. */
public final class StoresTest {
    /** In milliseconds: nobody is taken for gone, however slow the machine is. */
    private static final int LEASE = 60_000;
    /** Of who is to find soon that somebody is gone, or that a request is closed. Nobody else may run a function meanwhile. */
    private static final int SHORT_LEASE = 500;

    private StoresTest() {}

    /** With a database's address, it is the process that dies in a function. */
    public static void main(String[] args) throws Exception {
        try (StoreService service = service(() -> JdbcStore.open(args[0]), new Functions().with("inc", 1, number -> {
            Runtime.getRuntime().halt(7);
            return number;
        }))) {
            service.open("dies").stage(1).get(60, TimeUnit.SECONDS);
        }
    }

    public static boolean hasDriver() {
        try {
            Class.forName("org.sqlite.JDBC");
            return true;
        } catch (ClassNotFoundException missing) {
            return false;
        }
    }

    public static boolean onPath(String program) {
        return Arrays.stream(System.getenv("PATH").split(":")).anyMatch(it -> new File(it, program).canExecute());
    }

    /** Where the requests of a test stand. */
    public interface Place extends AutoCloseable {
        Store open();

        @Override
        default void close() throws Exception {}
    }

    /** One that has an address of JDBC's. */
    public interface Database extends Place {
        String url();

        @Override
        default JdbcStore open() {
            return JdbcStore.open(url());
        }

        /** A connection to the engine itself. */
        default Connection connect() throws SQLException {
            return DriverManager.getConnection(url());
        }
    }

    /** A schema of its own in the database of PostgreSQL's that {@code CF_STORES} names, for as long as a test runs. */
    public static final class InPostgres implements Database {
        private static final AtomicInteger SCHEMAS = new AtomicInteger();
        private final String schema = "cf_test_" + ProcessHandle.current().pid() + "_" + SCHEMAS.incrementAndGet();

        public InPostgres() throws SQLException {
            execute("create schema " + schema);
        }

        /** The address, or null where none is named. */
        public static String address() {
            for (String named : System.getenv().getOrDefault("CF_STORES", "").split(" ")) {
                if (named.startsWith("postgresql://")) {
                    URI uri = URI.create(named);
                    return "jdbc:postgresql://" + uri.getHost() + ":" + uri.getPort() + uri.getPath() + "?user=" + uri.getUserInfo();
                }
            }
            return null;
        }

        private static void execute(String statement) throws SQLException {
            try (Connection at = DriverManager.getConnection(address()); Statement asked = at.createStatement()) {
                asked.execute(statement);
            }
        }

        @Override
        public String url() {
            return address() + "&currentSchema=" + schema;
        }

        @Override
        public void close() throws SQLException {
            execute("drop schema " + schema + " cascade");
        }
    }

    /** A file of its own, for as long as a test runs. */
    public static final class InFile implements Database {
        final Path folder = Files.createTempDirectory("cf-store");
        final String path = folder.resolve("db").toString();

        public InFile() throws IOException {}

        @Override
        public String url() {
            return "jdbc:sqlite:" + path;
        }

        @Override
        public void close() throws IOException {
            for (File file : folder.toFile().listFiles()) {
                Files.delete(file.toPath());
            }
            Files.delete(folder);
        }
    }

    static StoreService service(Place place, Functions functions) {
        return service(place, functions, 4, false);
    }

    static StoreService service(Place place, Functions functions, int threads, boolean takesAll) {
        return StoreService.builder(place.open(), functions).threads(threads).lease(LEASE, TimeUnit.MILLISECONDS).takesAll(takesAll).build();
    }

    static StoreService hasty(Place place, Functions functions) {
        return StoreService.builder(place.open(), functions).lease(SHORT_LEASE, TimeUnit.MILLISECONDS).build();
    }

    /** A store of which this sees each call first. What it gives that isn't null is the answer. */
    static Store seen(Store store, BiFunction<String, Object[], Object> sees) {
        return (Store) Proxy.newProxyInstance(Store.class.getClassLoader(), new Class<?>[] {Store.class}, (proxy, method, args) -> {
            Object answer = sees.apply(method.getName(), args);
            try {
                return answer != null ? answer : method.invoke(store, args);
            } catch (InvocationTargetException thrown) {
                throw thrown.getCause();
            }
        });
    }

    static Object end(StoredStage stage) throws Exception {
        try {
            return stage.get(120, TimeUnit.SECONDS);
        } catch (ExecutionException ended) {
            return ended.getCause();
        }
    }

    static RemoteException remote(StoredStage stage) throws Exception {
        return (RemoteException) end(stage);
    }

    public static void json() {
        Map<String, Object> value = new LinkedHashMap<>();
        value.put("a\"\\\n\u0001é\ud83d\ude00", Arrays.asList(1L, -2.5, true, null, "x", Collections.emptyList(), Collections.emptyMap()));
        value.put("half \ud83d", new java.math.BigInteger("18446744073709551616"));
        is(Json.read(Json.write(value)), value);
        is(new String(Json.write(value), StandardCharsets.UTF_8).contains("\\ud83d"), true);
        is(Json.read(" [ 1e3 , { } ] ".getBytes(StandardCharsets.UTF_8)), Arrays.asList(1000.0, Collections.emptyMap()));
        for (String text : new String[] {"", "[1,]", "{\"a\" 1}", "01", "nul", "\"\\x\"", "1 2", "[" + String.join("", Collections.nCopies(600, "["))}) {
            thrown(IllegalArgumentException.class, () -> Json.read(text.getBytes(StandardCharsets.UTF_8)));
        }
        thrown(IllegalArgumentException.class, () -> Json.write(Double.NaN));
        thrown(IllegalArgumentException.class, () -> Json.write(new Object()));
    }

    /** A group stands whole or not at all, wherever its payloads stand. */
    public static void puts(Place place) {
        try (Store store = place.open()) {
            long number = store.open("puts", StoredPlan.text("", Collections.emptyList(), Collections.emptyMap())).number;
            byte[] small = {7}, large = new byte[5000];
            large[4999] = 7;
            List<Store.Entry> one = Collections.singletonList(new Store.Entry(1, 1));
            List<Store.Entry> three = Arrays.asList(new Store.Entry(2, 2), new Store.Entry(3, 3), new Store.Entry(4, 4));
            for (int at = 0; at < 40; at += 4) {
                Map<Integer, byte[]> payloads = new LinkedHashMap<>();
                payloads.put(at + 2, small);
                if (at % 8 == 0) {
                    payloads.put(at + 4, large);
                }
                is(store.append(new Store.Put("puts", number, at, one, Collections.emptyMap(), false)), null);
                is(store.append(new Store.Put("puts", number, at, one, payloads, false)).size(), 1); // (its place is taken)
                is(store.append(new Store.Put("puts", number, at + 1, three, payloads, false)), null);
                is(store.append(new Store.Put("puts", number, at + 1, three, payloads, false)).size(), 3);
                is(store.append(new Store.Put("puts", number, at + 3, three, payloads, false)).size(), 1); // (two of the group's places are free)
                is(Arrays.equals(store.payload("puts", number, at + 2), small), true);
                is(Arrays.equals(store.payload("puts", number, at + 4), at % 8 == 0 ? large : null), true);
                List<Store.Entry> read = store.read("puts", number, at);
                is(read.size(), 4);
                is(read.get(1).payload == null || read.get(1).payload[0] == 7, true); // (a store may give small ones along)
                is(read.get(3).payload, null);
            }
            for (List<Store.Entry> entries : Arrays.asList(one, three)) {
                thrown(StoreException.Gone.class, () -> store.append(new Store.Put("puts", number + 1, 0, entries, Collections.emptyMap(), false)));
            }
            is(store.read("puts", number, 0).size(), 40);
            thrown(StoreException.Gone.class, () -> store.payload("puts", number + 1, 1));
        }
    }

    /** What several threads put while they wait for the file is one commit, and what is refused of one is that one's. */
    public static void together(InFile file) throws Exception {
        try (SqliteStore store = (SqliteStore) file.open(); Line line = new Line(file.path)) {
            String plan = StoredPlan.text("", Collections.emptyList(), Collections.emptyMap());
            List<Store.Put> puts = new ArrayList<>();
            for (int k = 0; k < 9; k++) {
                Store.Opened opened = store.open("together " + k, plan);
                List<Store.Entry> entries = Collections.nCopies(1 + k % 2, new Store.Entry(1, k));
                Map<Integer, byte[]> large = k == 8 ? Collections.singletonMap(1, new byte[5000]) : Collections.emptyMap();
                puts.add(new Store.Put(opened.name, opened.number + (k == 0 ? 100 : 0), 0, entries, large, false));
            }
            store.append(new Store.Put("together 1", puts.get(1).number, 0, Collections.singletonList(new Store.Entry(1, 77)), Collections.emptyMap(), false));
            Object[] told = new Object[puts.size()];
            List<Thread> threads = new ArrayList<>();
            int before = store.commits;
            line.lockWithin(60);
            for (int k = 0; k < told.length; k++) {
                int its = k;
                Thread thread = new Thread(() -> {
                    try {
                        told[its] = store.append(puts.get(its));
                    } catch (StoreException refused) {
                        told[its] = refused.getClass();
                    }
                });
                thread.start();
                threads.add(thread);
                while (store.waitingPuts() < k + 1) {
                    Thread.sleep(1);
                }
            }
            line.unlockTurn();
            for (Thread thread : threads) {
                thread.join();
            }
            is(told[0], StoreException.Gone.class);
            is(((List<?>) told[1]).size(), 1); // (its place is taken)
            for (int k = 2; k < told.length; k++) {
                is(told[k], null);
                is(store.read("together " + k, puts.get(k).number, 0).size(), 1 + k % 2);
            }
            is(store.payload("together 8", puts.get(8).number, 1).length, 5000);
            is(store.commits - before, 2); // (the large one is put by itself)
        }
    }

    public static void functions(Place place) throws Exception {
        Functions functions = new Functions().with("seven", 1, () -> 7L).with("inc", 1, number -> (Long) number + 1)
                .with("add", 1, (a, b) -> (Long) a + (Long) b).with("declined", 1, number -> {
                    throw new IllegalStateException("card declined");
                }).with("sorry", 1, thrown -> "sorry, " + ((RemoteException) thrown).text())
                .with("both", 1, (value, thrown) -> Arrays.asList(value, thrown == null ? null : ((RemoteException) thrown).kind()))
                .with("object", 1, number -> new Object());
        try (StoreService service = service(place, functions)) {
            StoredRequest request = service.request("all");
            StoredStage number = request.promise("number"), inc = number.then("inc");
            StoredStage sum = inc.combine(request.supply("seven"), "add");
            is(number.complete(41), true);
            is(number.complete(1), false);
            is(end(sum), 49L);
            StoredStage declined = inc.then("declined");
            is(remote(declined).kind(), "IllegalStateException");
            is(remote(declined).text(), "card declined");
            StoredStage sorry = declined.recover("sorry");
            is(end(sorry), "sorry, card declined");
            is(end(inc.handle("both")), Arrays.asList(42L, null));
            is(end(declined.handle("both")), Arrays.asList(null, "IllegalStateException"));
            is(remote(inc.then("object")).kind(), "IllegalArgumentException");
            is(remote(inc.then("seven")).text(), "seven takes 0 arguments, and was given 1");
            is(end(request.supply("add", 1L, 2L)), 3L);
            is(end(request.promise("never").either(inc, "inc")), 43L);
            is(end(request.allOf(inc, sum, sorry)), null);
            is(end(request.anyOf(inc, request.promise("late"))), 42L);
            is(end(request.anyOf(inc, sum, number)), 42L); // (the first that was named, where all are settled)
            StoredStage open = request.promise("open");
            is(end(request.anyOf(open, open, open, inc)), 42L);
            is(request.stage("inc").number(), 1);
            is(request.stage("inc").name(), "inc");
            is(request.stage("none"), null);
            is(sum.toFuture().get(), 49L);
            thrown(IllegalArgumentException.class, () -> inc.then("nobody"));
            thrown(IllegalArgumentException.class, () -> inc.combine(service.request("other").promise("p"), "add"));
        }
    }

    public static void others(Place place) throws Exception {
        AtomicInteger calls = new AtomicInteger();
        Functions functions = new Functions().with("inc", 1, number -> {
            calls.incrementAndGet();
            return (Long) number + 1;
        });
        StoredStage last;
        try (StoreService first = service(place, functions, 0, false)) {
            StoredRequest request = first.request("shared");
            StoredStage number = request.promise("number");
            last = number;
            for (int k = 0; k < 20; k++) {
                last = last.then("inc");
            }
            for (int k = 0; k < 20; k++) {
                number.then("inc"); // (all of these are ready at once)
            }
        }
        is(end(last) instanceof IllegalStateException, true);
        List<StoreService> workers = new ArrayList<>();
        for (int k = 0; k < 3; k++) {
            workers.add(service(place, functions, 2, true));
        }
        try (StoreService second = service(place, new Functions())) {
            StoredRequest request = second.open("shared");
            is(request.stage(0).complete(0), true);
            is(end(request.stage(20)), 20L);
            for (int k = 21; k < 41; k++) {
                is(end(request.stage(k)), 1L);
            }
            is(calls.get(), 40); // each function once
            thrown(StoreException.Gone.class, () -> second.open("no such"));
        }
        workers.forEach(StoreService::close);
    }

    public static void closed(Place place) throws Exception {
        try (Store store = place.open(); StoreService service = hasty(place, new Functions().with("inc", 1, number -> (Long) number + 1))) {
            StoredRequest request = service.request("closed");
            StoredStage number = request.promise("number");
            number.complete(1);
            is(store.news(null).ends.containsKey("closed"), true);
            request.end();
            is(store.news(null).ends.containsKey("closed"), false);
            until(() -> service.findServed("closed") == null); // (the service lets it go)
            StoredStage inc = number.then("inc");
            is(store.news(null).ends.containsKey("closed"), true);
            is(end(inc), 2L);
            is(service.resume().size(), 1);
        }
    }

    /** It does so in one step with its put, and where its place is taken, or the request is gone, it does nothing. */
    public static void opens(Place place) {
        try (Store store = place.open()) {
            Store.Opened opened = store.open("opens", "{}");
            is(store.append(putOf(opened, 0, false, null, 1)), null);
            is(store.end("opens", opened.number, 1), true);
            is(store.append(putOf(opened, 0, true, null, 2)).get(0).word, 1L);
            is(store.news(null).ends, Collections.emptyMap());
            is(store.append(putOf(opened, 1, true, null, 2)), null);
            is(store.news(null).ends, Collections.singletonMap("opens", 2));
            is(store.end("opens", opened.number, 2), true);
            is(store.append(putOf(opened, 1, true, new byte[5000], 3, 4)).get(0).word, 2L);
            is(store.news(null).ends, Collections.emptyMap());
            is(store.append(putOf(opened, 2, true, new byte[5000], 3, 4)), null);
            is(store.news(null).ends, Collections.singletonMap("opens", 4));
            is(store.payload("opens", opened.number, 3).length, 5000);
            Store.Opened other = new Store.Opened("opens", "{}", opened.number + 1);
            thrown(StoreException.Gone.class, () -> store.append(putOf(other, 4, true, null, 5)));
        }
    }

    /** A put of words, the first of which may have a payload. */
    private static Store.Put putOf(Store.Opened to, int at, boolean opens, byte[] payload, long... words) {
        List<Store.Entry> entries = new ArrayList<>();
        for (long word : words) {
            entries.add(new Store.Entry(word, word + 10));
        }
        return new Store.Put(to.name, to.number, at, entries, payload == null ? Collections.emptyMap() : Collections.singletonMap(at + 1, payload), opens);
    }

    /** What was put or opened since a mark is told; of requests that were closed, only that of one which was closed behind its last word. */
    public static void news(Database place) {
        try (Store store = place.open()) {
            List<Store.Opened> opened = new ArrayList<>();
            for (int k = 0; k < 3; k++) {
                opened.add(store.open("news " + k, "{}"));
            }
            store.append(putOf(opened.get(0), 0, false, null, 1));
            store.append(putOf(opened.get(1), 0, false, null, 1));
            is(store.end("news 0", opened.get(0).number, 1), true);
            Store.News all = store.news(null);
            is(all.ends, new HashMap<>(Map.of("news 1", 1, "news 2", 0)));
            store.append(putOf(opened.get(1), 1, false, null, 2));
            store.append(putOf(opened.get(2), 0, false, null, 3));
            is(store.end("news 2", opened.get(2).number, 1), true);
            store.open("news 3", "{}");
            Store.News later = store.news(all.mark);
            is(later.ends, new HashMap<>(Map.of("news 1", 2, "news 2", -1, "news 3", 0)));
            store.append(putOf(opened.get(2), 1, true, null, 4));
            is(store.news(later.mark).ends.get("news 2"), 2);
        }
    }

    /** With the word that attaches the request is open, also one that was closed elsewhere: others go on with it. */
    public static void killedAtAttach(Place place) throws Exception {
        AtomicBoolean dies = new AtomicBoolean();
        Store store = place.open();
        Store dying = seen(store, (call, args) -> {
            if (!dies.get() || !call.equals("append")) {
                return null;
            }
            is(store.append((Store.Put) args[0]), null);
            throw new IllegalStateException("killed");
        });
        StoredFlow flow = new StoredFlow("order");
        flow.promise("given");
        try (StoreService service = StoreService.builder(dying, new Functions()).lease(1000, TimeUnit.SECONDS).build(); Store other = place.open()) {
            StoredRequest over = service.start(flow, "over", 1), plain = service.request("plain");
            until(() -> !other.news(null).ends.containsKey("over"));
            is(other.end("plain", plain.number, 0), true);
            dies.set(true);
            for (StoredRequest each : Arrays.asList(over, plain)) {
                is(other.news(null).ends.containsKey(each.name), false);
                thrown(IllegalStateException.class, () -> each.promise("late"));
                is(other.news(null).ends.containsKey(each.name), true);
            }
            dies.set(false);
        }
    }

    /** It stands, and is worked on. */
    public static void silentAtAttach(Place place) throws Exception {
        AtomicBoolean isSilent = new AtomicBoolean();
        Store store = place.open();
        Store silent = seen(store, (call, args) -> {
            if (!call.equals("append") || !isSilent.getAndSet(false)) {
                return null;
            }
            is(store.append((Store.Put) args[0]), null);
            throw new StoreException.Unknown("silent", null);
        });
        StoredFlow flow = new StoredFlow("order");
        flow.promise("given");
        Functions functions = new Functions().with("inc", 1, number -> (Long) number + 1);
        Host hasty = new Host() {
            @Override
            public long nanoTime() {
                return isSilent.get() ? super.nanoTime() : super.nanoTime() + RowView.PATIENCE;
            }
        };
        try (StoreService service = StoreService.builder(silent, functions).threads(2).lease(500, TimeUnit.MILLISECONDS).host(hasty).build();
                Store other = place.open()) {
            StoredRequest request = service.start(flow, "silent", 1);
            until(() -> !other.news(null).ends.containsKey("silent"));
            isSilent.set(true);
            thrown(StoreException.Unknown.class, () -> request.supply("inc", 1));
            until(() -> request.stage(1) != null);
            is(end(request.stage(1)), 2L);
        }
    }

    /** Also where the request is closed right behind the last word, and nobody has looked meanwhile at all that are open. */
    public static void toldAtTheEnd(Database place) throws Exception {
        AtomicBoolean looks = new AtomicBoolean(true);
        AtomicInteger looked = new AtomicInteger();
        Store store = place.open();
        Store slow = seen(store, (call, args) -> {
            if (call.equals("news")) {
                looked.incrementAndGet();
                return looks.get() ? null : new Store.News(Collections.emptyMap(), args[0]);
            }
            return null;
        });
        StoredFlow flow = new StoredFlow("order");
        flow.promise("given").then("inc");
        Functions functions = new Functions().elsewhere("inc", 1);
        try (StoreService service = StoreService.builder(slow, functions).threads(0)
                .lease(1000, TimeUnit.SECONDS).build(); Store other = place.open()) {
            StoredStage last = service.start(flow, "told").stage(1);
            while (looked.get() < 2) { // (from then on it asks by a mark)
                Thread.sleep(1);
            }
            looks.set(false);
            RowView view = new RowView(other, other.find("told"), 5, new Host());
            view.catchUp();
            view.act(it -> Arrays.asList(new RowView.WantedWord(Words.complete(0, 0, Words.NIL), null),
                    new RowView.WantedWord(Words.cancel(0, 1), null)));
            is(other.end("told", view.opened.number, 2), true);
            looks.set(true);
            thrown(CancellationException.class, () -> last.get(60, TimeUnit.SECONDS));
        }
    }

    public static void timers(Place place) throws Exception {
        Functions functions = new Functions().with("text", 1, thrown -> ((RemoteException) thrown).text())
                .with("both", 1, (one, two) -> Arrays.asList(one, two));
        try (StoreService service = service(place, functions)) {
            StoredRequest request = service.request("timers");
            StoredStage slow = request.promise("slow"), other = request.promise("other"), soon = request.promise("soon");
            StoredStage late = request.promise("late"), both = late.combine(slow, "both"), first = request.anyOf(late, slow);
            slow.orTimeout(50, TimeUnit.MILLISECONDS);
            other.completeOnTimeout("in its place", 50, TimeUnit.MILLISECONDS);
            soon.orTimeout(1, TimeUnit.MINUTES).complete(null);
            is(((TimeoutException) end(slow)).getMessage(), "slow took longer than 0.05 s");
            is(end(other), "in its place");
            is(end(soon), null);
            late.orTimeout(60, TimeUnit.MILLISECONDS);
            is(((TimeoutException) end(both)).getMessage(), "late took longer than 0.06 s");
            is(((TimeoutException) end(first)).getMessage(), "slow took longer than 0.05 s");
            is(end(first.recover("text")), "slow took longer than 0.05 s");
            long[] words = request.history().words();
            int timeouts = 0;
            for (int k = 0; k < words.length; k++) {
                if (Words.kind(words[k]) == Words.FAIL_AS) {
                    timeouts++;
                    is(words[k] & 0xfffffffffL, (long) k + 1); // (its tag, and where its payload stands)
                }
            }
            is(timeouts, 2);
        }
        try (Store store = place.open()) {
            List<Store.Timer> left = store.dueTimers(1e12);
            is(left.size(), 1); // what was fired is forgotten
            is(left.get(0).stage, 2);
        }
    }

    public static void settled(Place place) throws Exception {
        try (StoreService service = service(place, new Functions())) {
            StoredRequest request = service.request("settled");
            StoredStage failed = request.promise("failed"), cancelled = request.promise("cancelled"), left = request.promise("left");
            is(failed.fail(new RemoteException("Closed", "we are closed")), true);
            is(failed.cancel(), false);
            is(cancelled.cancel(), true);
            is(cancelled.abandon(), true);
            is(cancelled.complete(1), false);
            is(remote(failed).getMessage(), "Closed: we are closed");
            is(remote(failed).args(), Collections.singletonList("we are closed"));
            thrown(CancellationException.class, () -> end(cancelled));
            is(left.isDone(), false);
            thrown(TimeoutException.class, () -> left.get(5, TimeUnit.MILLISECONDS));
            String large = String.join("", Collections.nCopies(100_000, "x"));
            is(left.complete(large), true);
            is(end(left), large);
            try (StoreService other = service(place, new Functions())) {
                is(end(other.open("settled").stage("left")), large);
            }
        }
    }

    /** All of it is cancelled, the last stage first: also what runs, and what another process has attached. */
    public static void cancelledRequest(Place place) throws Exception {
        CountDownLatch runs = new CountDownLatch(1), goes = new CountDownLatch(1);
        Functions functions = new Functions().with("waits", 1, () -> {
            runs.countDown();
            return goes.await(20, TimeUnit.SECONDS);
        });
        try (StoreService working = service(place, functions); StoreService other = service(place, new Functions())) {
            StoredRequest request = working.request("cancelled");
            StoredStage running = request.supply("waits"), settled = request.promise("settled");
            is(settled.complete(1), true);
            for (int k = 0; k < 40; k++) {
                request.promise("open");
            }
            is(runs.await(20, TimeUnit.SECONDS), true);
            StoredStage late = other.open("cancelled").promise("late");
            request.cancelAll();
            List<Long> wanted = new ArrayList<>();
            for (long stage = 42; stage >= 0; stage--) {
                StoredStage each = request.stage((int) stage);
                if (stage != settled.number()) {
                    wanted.add(stage);
                    is(each.isDone(), true);
                    thrown(CancellationException.class, () -> end(each));
                }
            }
            thrown(CancellationException.class, () -> end(late));
            List<Long> cancelled = new ArrayList<>();
            for (long word : request.history().words()) {
                if (Words.kind(word) == Words.CANCEL) {
                    cancelled.add(word >>> 36 & 0xfff);
                }
            }
            is(cancelled, wanted);
            request.cancelAll(); // nothing is open
            is(request.promise("later").number(), 43);
            goes.countDown();
            is(end(settled), 1L);
            thrown(CancellationException.class, () -> end(running));
        }
    }

    public static void dies(Database file) throws Exception {
        int once, again;
        Functions functions = new Functions().with("inc", 1, number -> (Long) number + 1);
        try (StoreService planner = service(file, functions, 0, false)) {
            StoredRequest request = planner.request("dies");
            StoredStage number = request.promise("number"), inc = number.then("inc");
            once = inc.number();
            again = inc.again(1).number();
            number.complete(1);
        }
        String java = System.getProperty("java.home") + "/bin/java";
        Process child = new ProcessBuilder(java, "-cp", System.getProperty("java.class.path"), StoresTest.class.getName(), file.url()).inheritIO().start();
        is(child.waitFor(), 7);
        try (StoreService service = hasty(file, functions)) {
            StoredRequest request = service.open("dies");
            is(remote(request.stage(once)).getMessage(), "Abandoned: the worker that ran inc is gone, and it may have run");
            is(end(request.stage(again)), 2L);
        }
    }

    public static void hangs(Place place) throws Exception {
        Functions functions = new Functions().with("null", 1, value -> 1L).with("nulls", 1, (one, other) -> 1L);
        try (StoreService service = service(place, functions)) {
            StoredRequest request = service.request("hangs");
            StoredStage one = request.promise("one"), two = request.promise("two");
            StoredStage[] tries = {one.then("null").again(2), one.either(two, "null").again(2), one.combine(two, "nulls").again(2)};
            is(one.fail(new RemoteException(RemoteException.ABANDONED, "gone")), true);
            is(two.complete(1), true);
            for (StoredStage last : tries) {
                is(end(last).toString().contains("Abandoned: gone"), true);
            }
        }
    }

    /** A further try of a stage that was settled by hand is called with what its sources hold, the first one that has a value where one is enough. */
    public static void again(Place place) throws Exception {
        Functions functions = new Functions().with("say", 1, value -> "with " + value).with("both", 1, (one, other) -> "with " + one + " and " + other)
                .with("handled", 1, (value, thrown) -> "with " + value + ", " + (thrown == null ? null : ((RemoteException) thrown).kind()));
        Object failed = "failed", open = "open";
        Object[][] ends = {{null, 5}, {failed, 5}, {open, open}};
        String[] either = {"null", "5", "null"};
        try (StoreService plans = service(place, functions, 0, false)) {
            List<StoredStage> tries = new ArrayList<>();
            for (int k = 0; k < ends.length; k++) {
                StoredRequest request = plans.request("again " + k);
                StoredStage[] of = {request.promise("one"), request.promise("other")};
                StoredStage[] stages = {of[0].either(of[1], "say"), of[0].combine(of[1], "both"), of[0].handle("handled")};
                for (StoredStage stage : stages) {
                    StoredStage again = stage.again(1);
                    tries.add(again.again(1)); // (a further try of a further try)
                    for (StoredStage lost : new StoredStage[] {stage, again}) {
                        lost.fail(new RemoteException(RemoteException.ABANDONED, "by hand"));
                    }
                }
                for (int n = 0; n < 2; n++) {
                    if (ends[k][n] == failed) {
                        of[n].fail(new RemoteException("Closed", "we are closed"));
                    } else if (ends[k][n] != open) {
                        of[n].complete(ends[k][n]);
                    }
                }
            }
            try (StoreService works = service(place, functions, 4, true)) {
                for (int k = 0; k < ends.length; k++) {
                    Object[] of = new Object[2];
                    for (int n = 0; n < 2; n++) {
                        of[n] = ends[k][n] == failed || ends[k][n] == open ? null : ends[k][n];
                    }
                    String fault = ends[k][0] == failed ? "Closed" : ends[k][0] == open ? "BadAnswer" : "null";
                    String[] wanted = {either[k], of[0] + " and " + of[1], of[0] + ", " + fault};
                    for (int n = 0; n < wanted.length; n++) {
                        StoredRequest request = works.open("again " + k);
                        is(end(request.stage(tries.get(3 * k + n).number())), "with " + wanted[n]);
                    }
                }
            }
        }
    }

    public static void onceMore(Place place) throws Exception {
        Functions functions = new Functions().with("null", 1, value -> 1L);
        try (StoreService planner = service(place, functions, 0, false)) {
            StoredRequest request = planner.request("once more");
            StoredStage one = request.promise("one"), last = one.then("null").again(2);
            is(one.fail(new RemoteException("Closed", "we are closed")), true);
            is(request.stage(last.number() - 1).fail(new RemoteException(RemoteException.ABANDONED, "gone")), true);
            try (StoreService service = service(place, functions)) {
                is(end(service.open("once more").stage(last.number())).toString().contains("we are closed"), true);
            }
        }
    }

    /** Who is gone: not where this process stood still, or the store was away. The beats of who is long gone are dropped. */
    public static void gone() {
        long[] now = {0}, takes = {0};
        boolean[] isAway = {false};
        Map<Long, Long> beats = new HashMap<>(Collections.singletonMap(1L, 1L));
        Host host = new Host() {
            @Override
            public long nanoTime() {
                return now[0];
            }
        };
        Store store = seen(null, (call, args) -> {
            now[0] += takes[0];
            if (isAway[0]) {
                throw new StoreException.Unknown("away", null);
            }
            return call.equals("beats") ? new HashMap<>(beats) : beats.remove(args[0]);
        });
        StoreService.Sessions sessions = new StoreService.Sessions(100, host);
        long[] pauses = {0, 10_000, 40, 20, 0, 50, 50, 50, 50};
        boolean[] areGone = new boolean[pauses.length];
        for (int k = 0; k < pauses.length; k++) {
            now[0] += pauses[k];
            isAway[0] = k == 6;
            beats.put(1L, k < 4 ? 1L : 2L); // (it beats once more before the fifth look)
            sessions.readBeats(store);
            areGone[k] = sessions.isGone(1);
        }
        is(Arrays.toString(areGone), "[false, false, false, true, false, false, false, false, false]");
        is(sessions.isGone(7), false); // (it never beat, so it counts from now on)
        for (int looks = 0; looks < 203; looks++) {
            now[0] += 50;
            sessions.readBeats(store);
        }
        is(sessions.isGone(7) + " " + beats, "true {}");
        beats.put(2L, 1L);
        sessions.readBeats(store);
        for (int looks = 0; looks < 4; looks++) { // (an answer that takes long is nobody's silence, and a word is a sign of life)
            takes[0] = 60;
            sessions.readBeats(store);
            takes[0] = 0;
            is(sessions.isGone(2), false);
        }
        for (int looks = 0; looks < 4; looks++) {
            now[0] += 40;
            sessions.readBeats(store);
            sessions.noteWord(2);
            is(sessions.isGone(2), false);
        }
        now[0] += 50;
        sessions.readBeats(store);
        now[0] += 50;
        sessions.readBeats(store);
        is(sessions.isGone(2), false);
        now[0] += 1;
        sessions.readBeats(store);
        is(sessions.isGone(2), true);
    }

    /** For the first job of each kind no thread can be started: what none took is taken later. */
    public static void noThread() throws Exception {
        Functions functions = new Functions().with("inc", 1, number -> (Long) number + 1);
        Set<Host.Job> refused = ConcurrentHashMap.newKeySet();
        Host host = new Host() {
            @Override
            public void execute(Job job, String request, Runnable act) {
                if (refused.add(job)) {
                    throw new OutOfMemoryError("unable to create native thread");
                }
                super.execute(job, request, act);
            }
        };
        try (InFile file = new InFile(); StoreService service = StoreService.builder(file.open(), functions).threads(2)
                .lease(LEASE, TimeUnit.MILLISECONDS).host(host).build()) {
            StoredRequest request = service.request("no thread");
            StoredStage number = request.promise("number"), inc = number.then("inc"), slow = request.promise("slow");
            slow.orTimeout(30, TimeUnit.MILLISECONDS);
            number.complete(1);
            is(end(inc), 2L);
            is(end(slow).getClass(), TimeoutException.class);
            is(refused.containsAll(Arrays.asList(Host.Job.WORK, Host.Job.FIRE)), true);
        }
    }

    /** Drops a request, as Python's processes can. */
    private static void drop(Database file, StoredRequest request) throws SQLException {
        try (Connection at = file.connect(); Statement asked = at.createStatement()) {
            for (String table : file instanceof InFile ? new String[] {"cf_word", "cf_large", "cf_name"} : new String[] {"cf_word", "cf_name"}) {
                asked.execute("delete from " + table + " where request = " + request.number);
            }
            asked.execute("delete from cf_request where id = " + request.number);
        }
    }

    /** A request is dropped, and another of its name opened: who has the first is told so, its timer is nothing to the second, and that goes on. */
    public static void another(Database file) throws Exception {
        Functions functions = new Functions().with("inc", 1, number -> (Long) number + 1);
        List<Store.Timer> old = Collections.synchronizedList(new ArrayList<>());
        try (Store store = file.open(); StoreService other = service(file, functions, 0, false)) {
            Place keeping = () -> seen(store, (call, args) -> {
                if (call.equals("dropTimer")) {
                    old.remove(args[0]);
                }
                return call.equals("dueTimers") && !old.isEmpty() ? new ArrayList<>(old) : null;
            });
            try (StoreService service = service(keeping, functions)) {
                StoredRequest first = service.request("again");
                StoredStage told = first.promise("told");
                drop(file, first);
                StoredRequest second = service.request("again");
                is(end(told).getClass(), StoreException.Gone.class);
                StoredStage later = second.promise("later"), last = later.then("inc"), number = second.promise("number"), inc = number.then("inc");
                number.complete(1);
                is(end(inc), 2L);
                service.serve(first);
                old.add(new Store.Timer("again", first.number, later.number(), 0, new byte[] {'N'}));
                until(old::isEmpty);
                is(service.findServed("again") == second, true);
                is(other.open("again").stage(later.number()).complete(1), true);
                is(end(last), 2L);
            }
        }
    }

    /** A value can't be read once, behind the claim that is called with it: the function is called all the same. */
    public static void unread(Place place) throws Exception {
        Functions functions = new Functions().with("inc", 1, number -> (Long) number + 1);
        AtomicInteger reads = new AtomicInteger();
        try (StoreService asks = service(place, functions, 0, false)) {
            StoredStage number = asks.request("unread").promise("number");
            number.complete(1);
            StoredStage inc = number.then("inc");
            Store store = place.open();
            Place failing = () -> seen(store, (call, args) -> {
                if (call.equals("payload") && args[2].equals(2) && reads.getAndIncrement() == 0) {
                    throw new StoreException("the value is away");
                }
                return null;
            });
            try (StoreService works = service(failing, functions)) {
                is(end(works.open("unread").stage(inc.number())), 2L);
                is(reads.get() > 1, true);
            }
        }
    }

    public static void broken(Place place) throws Exception {
        try (Store store = place.open(); StoreService service = service(place, new Functions())) {
            store.open("no plan", "{}");
            store.open("old plan", "{\"cf\":2,\"flow\":\"\",\"stages\":[]}");
            store.open("no source", "{\"cf\":3,\"flow\":\"\",\"stages\":[{\"form\":\"apply\",\"name\":\"a\",\"of\":[7]}]}");
            for (String name : new String[] {"no plan", "old plan", "no source"}) {
                thrown(StoreException.Broken.class, () -> service.open(name));
            }
            thrown(StoreException.class, () -> JdbcStore.open("jdbc:other:x"));
        }
    }

    /** Who requires this module alone has that of JDBC, too: its public classes name it. */
    public static void module() throws Exception {
        Path jar = Path.of(Request.class.getProtectionDomain().getCodeSource().getLocation().toURI());
        ModuleDescriptor found = ModuleFinder.of(jar).find("cf.service").get().descriptor();
        Set<ModuleDescriptor.Requires.Modifier> modifiers = found.requires().stream().filter(it -> it.name().equals("java.sql")).findFirst().get().modifiers();
        is(modifiers, Collections.singleton(ModuleDescriptor.Requires.Modifier.TRANSITIVE));
    }

    /** What a program sees has no types of the package that the module keeps to itself, but for what a program can't call for want of them. */
    public static void exported() throws Exception {
        Path jar = Path.of(Request.class.getProtectionDomain().getCodeSource().getLocation().toURI());
        Set<String> packages = ModuleFinder.of(jar).find("cf.service").get().descriptor().exports().stream().map(it -> it.source())
                .collect(Collectors.toCollection(TreeSet::new));
        is(packages.toString(), "[cf.service, cf.store, cf.testing]");
        Set<String> leaks = new TreeSet<>();
        try (JarFile classes = new JarFile(jar.toFile())) {
            for (JarEntry each : (Iterable<JarEntry>) classes.stream()::iterator) {
                String name = each.getName().replace('/', '.').replaceFirst("\\.class$", "");
                if (each.getName().endsWith(".class") && packages.contains(name.substring(0, Math.max(0, name.lastIndexOf('.'))))) {
                    leaks(Class.forName(name, false, StoresTest.class.getClassLoader()), leaks);
                }
            }
        }
        is(leaks.toString(), "[cf.service.History.teller, cf.service.RequestFullException.<init>, cf.service.RequestHistory.teller,"
                + " cf.store.StoredHistory.teller]");
    }

    private static void leaks(Class<?> of, Set<String> leaks) {
        for (Class<?> outer = of; outer != null; outer = outer.getDeclaringClass()) {
            if (outer.isAnonymousClass() || (outer.getModifiers() & (Modifier.PUBLIC | Modifier.PROTECTED)) == 0) {
                return;
            }
        }
        List<Object> members = new ArrayList<>(Arrays.asList(of.getDeclaredFields()));
        members.addAll(Arrays.asList(of.getDeclaredConstructors()));
        members.addAll(Arrays.asList(of.getDeclaredMethods()));
        for (Object each : members) {
            boolean isSeen = (((Member) each).getModifiers() & (Modifier.PUBLIC | Modifier.PROTECTED)) != 0 && !((Member) each).isSynthetic();
            String said = each instanceof Field ? ((Field) each).toGenericString() : ((Executable) each).toGenericString();
            if (isSeen && said.contains("cf.internal.")) {
                leaks.add(of.getName() + "." + (each instanceof Constructor ? "<init>" : ((Member) each).getName()));
            }
        }
    }
}
