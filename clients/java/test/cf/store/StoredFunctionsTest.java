package cf.store;

import static cf.service.Checks.fits;
import static cf.service.Checks.is;
import static cf.service.Checks.thrown;
import static cf.service.Checks.until;

import cf.internal.Host;
import cf.internal.Words;
import cf.service.Describe;
import cf.store.StoresTest.Database;
import cf.store.StoresTest.InFile;
import cf.store.StoresTest.Place;
import java.io.File;
import java.io.IOException;
import java.sql.Connection;
import java.sql.PreparedStatement;
import java.sql.ResultSet;
import java.sql.SQLException;
import java.util.ArrayList;
import java.util.Arrays;
import java.util.Collections;
import java.util.LinkedHashMap;
import java.util.List;
import java.util.Map;
import java.util.concurrent.ExecutionException;
import java.util.concurrent.Executor;
import java.util.concurrent.TimeUnit;
import java.util.concurrent.TimeoutException;
import java.util.concurrent.atomic.AtomicInteger;
import java.util.function.Consumer;

/** Functions of requests in stores that compose, are transactional, or take arguments by name; contexts, flows, and histories. */
public final class StoredFunctionsTest {
    private static final ThreadLocal<String> TENANT = new ThreadLocal<>();

    private StoredFunctionsTest() {}

    /** With a database's address, it is the process that dies in a transactional function, behind its effect. */
    public static void main(String[] args) throws Exception {
        Functions functions = new Functions().transactional("pay", 1, (db, given) -> {
            insert(db, (String) given.get(0));
            Runtime.getRuntime().halt(7);
            return null;
        });
        try (StoreService service = StoresTest.service(() -> JdbcStore.open(args[0]), functions)) {
            service.open("dies").stage(0).get(60, TimeUnit.SECONDS);
        }
    }

    public static void composing(Place place) throws Exception {
        Functions functions = new Functions().with("inc", 1, number -> (Long) number + 1).with("seven", 1, () -> 7L)
                .composing("twice", 1, (request, number) -> request.supply("inc", number).then("inc"))
                .composing("fails", 1, (request, number) -> {
                    throw new IllegalStateException("no stage");
                }).composing("none", 1, (request, number) -> null)
                .composing("late", 1, (request, number) -> request.promise("given").orTimeout(50, TimeUnit.MILLISECONDS))
                .composing("cancelled", 1, (request, number) -> {
                    StoredStage given = request.promise("dropped");
                    given.cancel();
                    return given;
                });
        try (StoreService service = StoresTest.service(place, functions)) {
            StoredStage others = service.request("of another").promise("p");
            functions.composing("other", 1, (request, number) -> others);
            StoredRequest request = service.request("composing");
            StoredStage number = request.promise("number"), twice = number.compose("twice"), more = twice.compose("twice").then("inc");
            StoredStage declined = request.promise("declined"), left = declined.compose("twice");
            is(number.complete(40), true);
            is(StoresTest.end(twice), 42L);
            is(StoresTest.end(more), 45L);
            is(twice.name() + ", " + request.stage(1).name(), "twice, what twice gives");
            is(StoresTest.remote(number.compose("fails")).text(), "no stage");
            is(StoresTest.remote(number.compose("none")).kind(), "IllegalArgumentException");
            is(StoresTest.remote(number.compose("other")).kind(), "IllegalArgumentException");
            is(((TimeoutException) StoresTest.end(number.compose("late"))).getMessage(), "given took longer than 0.05 s");
            thrown(java.util.concurrent.CancellationException.class, () -> StoresTest.end(number.compose("cancelled")));
            declined.fail(new RemoteException("Declined", "card"));
            is(StoresTest.remote(left).kind(), "Declined");
            // Nobody gives its promise anything, so that is cancelled: a request is never held up.
            thrown(java.util.concurrent.CancellationException.class, () -> StoresTest.end(request.stage(left.number() - 1)));
            thrown(IllegalArgumentException.class, () -> number.then("twice"));
            thrown(IllegalArgumentException.class, () -> number.compose("inc"));
            is(StoresTest.end(twice.again(2)), 42L);
            StoredStage some = request.gather(twice, request.supply("seven"), more);
            is(StoresTest.end(some), Arrays.asList(42L, 7L, 45L));
            is(StoresTest.end(request.gather(twice)), Arrays.asList(42L));
            thrown(IllegalArgumentException.class, request::gather);
        }
    }

    /** A stage that stands for another one ends as that does, with what is said of it: also by a cause that other programs give. */
    public static void badAnswers(Place place) throws Exception {
        Functions functions = new Functions().composing("asks", 1, (request, name) -> request.promise((String) name));
        try (StoreService service = StoresTest.service(place, functions); Store store = place.open()) {
            StoredRequest request = service.request("bad answers");
            RowView view = new RowView(store, store.find(request.name), 5, new Host());
            for (String why : new String[] {"why", null}) {
                byte[] said = why == null ? null : Json.write(new RemoteException("BadAnswer", why).toMap());
                StoredStage name = request.promise("name"), asks = name.compose("asks");
                name.complete("asked " + why);
                until(() -> request.stage("asked " + why) != null);
                int asked = request.stage("asked " + why).number();
                view.catchUp();
                view.act(it -> Collections.singletonList(new RowView.WantedWord(Words.failAs(0, asked, Words.BAD_ANSWER, 0), said)));
                is(thrown(ExecutionException.class, () -> asks.get(60, TimeUnit.SECONDS)).getCause().getClass(), IllegalStateException.class);
                long[] words = request.history().words();
                int found = 0;
                for (int k = 0; k < words.length; k++) {
                    int stage = Words.stage(words[k]);
                    if (Words.kind(words[k]) == Words.FAIL_AS && (stage == asked || stage == asks.number() - 1)) {
                        found++;
                        is(words[k] & 0xfffffffffL, (long) Words.BAD_ANSWER << 32 | (said == null ? 0 : k + 1));
                        is(Arrays.equals(store.payload(request.name, request.number, k + 1), said), true);
                    }
                }
                is(found, 2);
            }
        }
    }

    public static void named(Place place) throws Exception {
        Functions functions = new Functions().with("one", 1, it -> it)
                .byName("price", 1, (args, named) -> Arrays.asList(args, named)).with("seen", 1, (value, thrown) -> "not told");
        try (StoreService service = StoresTest.service(place, functions)) {
            StoredRequest request = service.request("named");
            Map<String, Object> named = new LinkedHashMap<>();
            named.put("count", 3L);
            is(StoresTest.end(request.supplyNamed("price", named, "lamp")), Arrays.asList(Arrays.asList("lamp"), named));
            is(StoresTest.end(request.supply("price", "lamp")), Arrays.asList(Arrays.asList("lamp"), Collections.emptyMap()));
            StoredStage waits = request.supplyNamed("one", named, 1); // (a function that doesn't take them isn't called)
            StoredStage lamp = request.supply("one", "lamp"), seen = lamp.whenDone("seen");
            is(StoresTest.end(seen), "lamp");
            is(waits.isDone(), false);
        }
    }

    private static void insert(Connection db, String name) throws SQLException {
        try (PreparedStatement insert = db.prepareStatement("insert into effect values (?)")) {
            insert.setString(1, name);
            insert.executeUpdate();
        }
    }

    private static List<String> effects(Database file) throws SQLException {
        List<String> effects = new ArrayList<>();
        try (Connection db = file.connect();
                ResultSet rows = db.createStatement().executeQuery("select name from effect order by name")) {
            while (rows.next()) {
                effects.add(rows.getString(1));
            }
        }
        return effects;
    }

    private static void makeTable(Database file) throws SQLException {
        try (Connection db = file.connect()) {
            db.createStatement().execute("create table if not exists effect (name text)");
        }
    }

    public static void transactions(Database file) throws Exception {
        AtomicInteger tries = new AtomicInteger();
        List<StoredRequest> its = new ArrayList<>();
        Functions functions = new Functions().with("same", 1, name -> name).transactional("pay", 1, (db, args) -> {
            insert(db, (String) args.get(0));
            return args.get(0);
        }).transactional("throws", 1, (db, args) -> {
            insert(db, "thrown");
            throw new IllegalStateException("declined");
        }).transactional("object", 1, (db, args) -> {
            insert(db, "object");
            return new Object();
        }).transactional("commits", 1, (db, args) -> {
            insert(db, "committed");
            db.commit();
            return null;
        }).transactional("puts", 1, (db, args) -> {
            insert(db, "put");
            return its.get(0).promise("too soon").number();
        }).transactional("puts elsewhere", 1, (db, args) -> {
            insert(db, "put elsewhere");
            return its.get(1).promise("too soon").number();
        }).transactional("breaks", 1, (db, args) -> {
            insert(db, "broken");
            db.createStatement().execute(tries.incrementAndGet() == 1 ? "rollback" : "select 1"); // (then no transaction is open)
            return "broken";
        });
        makeTable(file);
        try (StoreService service = StoresTest.service(file, functions)) {
            StoredRequest request = service.request("transactions"), other = service.request("another");
            its.addAll(Arrays.asList(request, other));
            List<String> wanted = new ArrayList<>();
            List<StoredStage> stages = new ArrayList<>();
            StoredStage chain = request.promise("begins");
            chain.toFuture().thenRun(() -> request.promise("told").complete(1)); // (who is told puts)
            for (int k = 0; k < 10; k++) {
                wanted.add("a" + k);
                stages.add(request.supply("pay", "a" + k)); // ready at once, beside those that aren't transactional
                stages.add(request.supply("same", k));
                stages.add(chain = chain.then("pay").then("same"));
                stages.get(stages.size() - 1).toFuture().thenRun(() -> request.promise("told").complete(2));
                stages.add(other.supply("same", k));
                wanted.add("b");
            }
            request.stage(0).complete("b");
            for (StoredStage stage : stages) {
                is(StoresTest.end(stage) instanceof Throwable, false);
            }
            is(StoresTest.end(chain), "b");
            Collections.sort(wanted);
            is(effects(file), wanted);
            // What fails has no effect, and neither has what would end the transaction, or put meanwhile.
            is(StoresTest.remote(request.supply("throws")).text(), "declined");
            is(StoresTest.remote(request.supply("object")).kind(), "IllegalArgumentException");
            is(StoresTest.remote(request.supply("commits")).text().contains("ends its transaction, and not commit"), true);
            is(StoresTest.remote(request.supply("puts")).text().contains("its transactional function can't put to it"), true);
            if (service.store.locksOutOthers()) {
                is(StoresTest.remote(request.supply("puts elsewhere")).text().contains("its own transaction has the file"), true);
            }
            is(effects(file), wanted);
            is(StoresTest.end(request.supply("same", "goes on")), "goes on");
            is(StoresTest.remote(request.supply("breaks")).kind(), "StoreException");
            is(StoresTest.end(request.supply("breaks")), "broken");
            is(StoresTest.end(other.supply("pay", "z")), "z");
            wanted.addAll(Arrays.asList("broken", "z"));
            Collections.sort(wanted);
            is(effects(file), wanted);
        }
    }

    public static void dies(Database file) throws Exception {
        makeTable(file);
        int again;
        Functions functions = new Functions().transactional("pay", 1, (db, args) -> {
            insert(db, (String) args.get(0));
            return "paid";
        });
        try (StoreService planner = StoresTest.service(file, functions, 0, false)) {
            again = planner.request("dies").supply("pay", "once").again(1).number();
        }
        String java = System.getProperty("java.home") + "/bin/java";
        String[] command = {java, "-cp", System.getProperty("java.class.path"), StoredFunctionsTest.class.getName(), file.url()};
        is(new ProcessBuilder(command).inheritIO().start().waitFor(), 7);
        is(effects(file), Collections.emptyList());
        try (StoreService service = StoresTest.hasty(file, functions)) {
            is(StoresTest.end(service.open("dies").stage(again)), "paid");
            is(effects(file), Arrays.asList("once"));
        }
    }

    public static void noTransactions(Place place) throws Exception {
        Functions functions = new Functions().transactional("pay", 1, (db, args) -> null);
        try (Store store = place.open()) {
            thrown(IllegalArgumentException.class, () -> new StoreService(store, functions));
            thrown(StoreException.class, store::transaction);
        }
    }

    /** Writers of all languages stand in one line. */
    public static void line(InFile file) throws Exception {
        String line = file.path + "-line";
        try (JdbcStore store = file.open(); JdbcStore other = file.open(); Line gives = new Line(file.path)) {
            is(new ProcessBuilder("flock", "-n", line, "true").start().waitFor(), 0);
            try (Store.Transaction has = store.transaction()) {
                is(new ProcessBuilder("flock", "-n", line, "true").start().waitFor(), 1);
                thrown(StoreException.class, () -> store.beat(1)); // (this thread has the file)
            }
            is(new ProcessBuilder("flock", "-n", line, "true").start().waitFor(), 0);
            Process has = new ProcessBuilder("flock", line, "sh", "-c", "echo has; read end; true").start();
            is(has.getInputStream().read(), (int) 'h');
            thrown(StoreException.Unknown.class, () -> gives.lockWithin(0)); // (who waits in its place lets go by itself)
            List<Thread> beats = new ArrayList<>();
            for (int k = 0; k < 3; k++) {
                int session = k;
                beats.add(new Thread(() -> (session == 0 ? other : store).beat(session)));
                beats.get(k).start();
            }
            Thread.sleep(500);
            for (Thread thread : beats) {
                is(thread.isAlive(), true);
            }
            has.getOutputStream().close();
            for (Thread thread : beats) {
                thread.join();
            }
            is(has.waitFor(), 0);
            is(store.beats().size(), 3);
            is(new ProcessBuilder("flock", "-w", "60", line, "true").start().waitFor(), 0);
            gives.lockWithin(60);
            gives.close(); // (it is this thread's turn still)
            is(new ProcessBuilder("flock", "-n", line, "true").start().waitFor(), 1);
            is(opened(line), 3L);
            gives.unlockTurn();
            is(opened(line), 2L);
            is(new ProcessBuilder("flock", "-n", line, "true").start().waitFor(), 0);
        }
        is(opened(line), 0L);
        try (Line none = new Line(file.folder + "/none/db")) {
            thrown(StoreException.Unknown.class, () -> none.lockWithin(0));
        }
    }

    /** How often this process has a file open. */
    private static long opened(String file) {
        return Arrays.stream(new File("/proc/self/fd").listFiles()).filter(it -> {
            try {
                return it.getCanonicalPath().equals(file);
            } catch (IOException closed) {
                return false;
            }
        }).count();
    }

    /** Carries a tenant, which a function may set for itself. */
    private static final class Tenant implements StoredContexts {
        private final String name;

        Tenant(String name) {
            this.name = name;
        }

        @Override
        public Map<String, ?> capture() {
            return TENANT.get() == null ? Collections.emptyMap() : Collections.singletonMap(name, TENANT.get());
        }

        @Override
        public Executor restore(Map<String, Object> carried) {
            return act -> {
                String before = TENANT.get();
                TENANT.set((before == null ? "" : before + "/") + carried.get(name));
                try {
                    act.run();
                } finally {
                    TENANT.set(before);
                }
            };
        }
    }

    /** A hook is told of each request that its service has closed, once, where the request was begun. */
    public static void ends(Place place) throws Exception {
        Functions functions = new Functions().with("inc", 1, number -> (Long) number + 1);
        StoredFlow flow = new StoredFlow("flow");
        StoredFlow.Step number = flow.promise("number"), inc = number.then("inc");
        List<String> told = Collections.synchronizedList(new ArrayList<>());
        Consumer<StoredHistory> hook = history -> {
            try {
                Thread.sleep(100); // (who closes the service waits for that)
            } catch (InterruptedException interrupted) {
                throw new AssertionError(interrupted);
            }
            String[] lines = history.toString().split("\n");
            told.add(lines[lines.length - 1].trim() + ", " + TENANT.get() + (Thread.currentThread().isDaemon() ? ", and the JVM wouldn't wait" : ""));
        };
        StoredContexts tenant = new Tenant("tenant");
        try (StoreService others = StoresTest.service(place, functions, 0, false)) {
            try (StoreService service = StoreService.builder(place.open(), functions).threads(2)
                    .lease(5, TimeUnit.SECONDS).takesAll(true).contexts(tenant).onEnd(hook).build()) {
                StoredRequest open = service.request("open"), ended = service.request("ended");
                TENANT.set("ada");
                for (int k = 0; k < 2; k++) {
                    is(StoresTest.end(service.start(flow, "flow " + k, k).stage(inc)), k + 1L);
                }
                TENANT.remove();
                ended.promise("by hand").complete(7);
                ended.end();
                ended.end(); // (it is closed)
                open.promise("open").complete(1);
                StoredRequest theirs = others.request("theirs");
                theirs.promise("it").complete(1);
                theirs.end();
            }
        }
        Collections.sort(told);
        is(told, Arrays.asList("0 by hand ends: 7, null", "1 inc ends: 1, ada", "1 inc ends: 2, ada"));
    }

    private static StoreService carrying(Place place, Functions functions, StoredContexts contexts, int threads) {
        return StoreService.builder(place.open(), functions).threads(threads).lease(5, TimeUnit.SECONDS).takesAll(true).contexts(contexts).build();
    }

    public static void contexts(Place place) throws Exception {
        Functions functions = new Functions().with("tenant", 1, it -> TENANT.get()).with("tenant", 2, () -> TENANT.get())
                .composing("composed", 1, (request, it) -> request.supply("throws")).with("throws", 1, () -> {
                    throw new IllegalStateException(TENANT.get());
                });
        StoredContexts tenant = new Tenant("tenant"), wrong = new StoredContexts() {
            @Override
            public Map<String, ?> capture() {
                return Collections.emptyMap();
            }

            @Override
            public Executor restore(Map<String, Object> carried) {
                return act -> {};
            }
        };
        StoredFlow flow = new StoredFlow("tenants");
        StoredFlow.Step step = flow.supply("tenant");
        TENANT.set("ada");
        try (StoreService plans = carrying(place, functions, tenant, 0)) {
            StoredRequest request = plans.request("contexts");
            request.supply("tenant");
            TENANT.set("bob");
            request.stage(0).then("throws"); // (a stage of another place has another context)
            request.promise("it").compose("composed");
            plans.start(flow, "flow of bob");
        } finally {
            TENANT.remove();
        }
        try (StoreService works = carrying(place, functions, tenant.and(new Tenant("other")), 2)) {
            StoredRequest request = works.open("contexts");
            is(StoresTest.end(request.stage(0)), "ada/null");
            is(StoresTest.remote(request.stage(1)).text(), "throws takes 0 arguments, and was given 1");
            request.stage(2).complete(1);
            is(StoresTest.remote(request.stage(3)).text(), "bob/null/bob/null"); // (what composes hands its own context on)
            is(StoresTest.end(works.open("flow of bob").stage(step)), "bob/null");
            is(StoresTest.end(request.supply("tenant")), "null/null");
        }
        try (StoreService works = carrying(place, functions, wrong, 2)) {
            is(StoresTest.remote(works.request("wrong").supply("tenant")).text(), "the context has not called the function at once");
        }
    }

    public static void flows(Place place) throws Exception {
        Functions functions = new Functions().with("inc", 1, number -> (Long) number + 1).with("add", 1, (a, b) -> (Long) a + (Long) b)
                .with("sorry", 1, thrown -> ((RemoteException) thrown).text()).with("both", 1, (value, thrown) -> value)
                .with("seven", 1, it -> 7L);
        StoredFlow flow = new StoredFlow("sum");
        StoredFlow.Step first = flow.promise("first"), second = flow.promise("second");
        StoredFlow.Step sum = first.then("inc").combine(second, "add"), tried = sum.then("inc").again(2), seven = flow.supply("seven", 1);
        StoredFlow.Step all = flow.allOf(sum, tried, seven), any = flow.anyOf(seven, flow.promise("never"));
        StoredFlow.Step handled = sum.handle("both").whenDone("both").either(second, "inc"), sorry = sum.recover("sorry");
        try (StoreService service = StoresTest.service(place, functions)) {
            StoredRequest request = service.start(flow, "sum of two", 40, 1);
            is(StoresTest.end(request.stage(sum)), 42L);
            is(StoresTest.end(request.stage(tried)), 43L);
            is(StoresTest.end(request.stage(all)), null);
            is(StoresTest.end(request.stage(any)), 7L);
            is(StoresTest.end(request.stage(handled)) instanceof Long, true);
            is(StoresTest.end(request.stage(sorry)), 42L);
            is(StoresTest.end(service.start(flow, "sum of two", 1, 1).stage(sum)), 42L); // (it goes on with what stands)
            StoredFlow longer = new StoredFlow("sum"), wrong = new StoredFlow("sum"), named = new StoredFlow("other");
            StoredFlow.Step its = longer.promise("first"), next = longer.promise("second").combine(its, "add");
            is(request.stage(its).number(), 0); // (built anew, it is the same flow up to there)
            StoredFlow.Step second2 = wrong.promise("second"), first2 = wrong.promise("first"), first3 = named.promise("first");
            for (StoredFlow.Step step : new StoredFlow.Step[] {next, second2, first2, first3}) {
                thrown(IllegalArgumentException.class, () -> request.stage(step));
            }
            thrown(IllegalArgumentException.class, () -> service.request("no flow").stage(first));
            StoredFlow other = new StoredFlow("sum");
            other.promise("first");
            thrown(StoreException.Broken.class, () -> service.start(other, "sum of two", 1));
            thrown(IllegalArgumentException.class, () -> service.start(other, "x", 1, 2));
            thrown(IllegalArgumentException.class, () -> other.allOf(first));
            StoredFlow unknown = new StoredFlow("unknown");
            unknown.supply("nobody");
            thrown(IllegalArgumentException.class, () -> service.start(unknown, "x"));
            StoredFlow wide = new StoredFlow("wide");
            StoredFlow.Step[] promises = new StoredFlow.Step[70];
            Object[] given = new Object[70];
            for (int k = 0; k < 70; k++) {
                promises[k] = wide.promise("p" + k);
                given[k] = k % 2 == 0 ? null : k;
            }
            StoredFlow.Step end = wide.allOf(promises);
            StoredRequest wider = service.start(wide, "wide", given);
            is(StoresTest.end(wider.stage(end)), null);
            is(StoresTest.end(wider.stage(promises[69])), 69L);
            is(StoresTest.end(wider.stage(promises[68])), null);
            until(() -> !service.store.news(null).ends.containsKey("wide")); // (it is closed by itself)
        }
    }

    /** A process that only begins requests names the functions of others. */
    public static void elsewhere(Place place) throws Exception {
        Functions names = new Functions().elsewhere("inc", 1).elsewhere("twice", 2);
        Functions functions = new Functions().with("inc", 1, number -> (Long) number + 1)
                .composing("twice", 2, (request, number) -> request.supply("inc", number).then("inc"));
        StoredFlow flow = new StoredFlow("elsewhere");
        StoredFlow.Step inc = flow.promise("number").then("inc");
        try (StoreService begins = StoresTest.service(place, names)) {
            StoredStage twice = begins.start(flow, "elsewhere", 40).stage(inc).compose("twice");
            thrown(IllegalArgumentException.class, () -> twice.then("add"));
            try (StoreService works = StoresTest.service(place, functions, 2, true)) {
                is(StoresTest.end(twice), 43L);
            }
        }
    }

    public static void histories(Place place) throws Exception {
        Functions functions = new Functions().with("inc", 1, number -> (Long) number + 1).with("declined", 1, number -> {
            throw new IllegalStateException("card declined");
        }).composing("twice", 1, (request, number) -> request.supply("inc", number));
        try (StoreService service = StoresTest.service(place, functions); StoreService other = StoresTest.service(place, functions)) {
            StoredRequest request = service.request("history");
            StoredStage number = request.promise("number"), inc = number.then("inc"), declined = inc.then("declined"), two = inc.compose("twice");
            other.open("history").stage(0).complete(41);
            is(StoresTest.remote(declined).text(), "card declined");
            is(StoresTest.end(two), 43L);
            is(StoresTest.end(request.promise("late").orTimeout(1, TimeUnit.MILLISECONDS)) instanceof TimeoutException, true);
            StoredHistory history = request.history();
            String lines = history.toString();
            is(lines.startsWith("history: " + history.words().length + " events, 7 stages\n"), true);
            for (String line : new String[] {"attaches 1 inc, apply behind 0 number", "completes 0 number with 41", "1 inc ends: 42",
                "2 declined ends: IllegalStateException: card declined", "4 twice ends: 43",
                "6 late ends: timed out, TimeoutError: late took longer than 0.001 s\n"}) {
                is(lines.contains(line) ? line : lines, line);
            }
            is(history.line().startsWith("history"), true);
            is(request.history(Describe.NOTHING).toString().contains("ends: 42"), false);
            fits(history.account());
            // Where sessions share a number each has its own records.
            long[] words = history.words(), sessions = new long[words.length];
            for (int k = 0; k < words.length; k++) {
                sessions[k] = k % 2;
            }
            String[] texts = new String[words.length + 1];
            Arrays.fill(texts, "");
            StoredHistory shared = new StoredHistory("shared", new int[0], 7, words, sessions, new String[] {"a", "b", "c", "d", "e", "f", "g"}, texts,
                    texts, Collections.singletonMap(1L, "Ada"));
            is(shared.account().contains("\"sessions\":["), true);
            is(history.account().contains("\"sessions\":["), false);
            is(shared.toString().contains("Ada attaches"), true);
            fits(shared.account());
            is(history.script().contains("\"stages\""), true);
        }
    }

    /** What a function has attached is found again by all that was said of it, its arguments, too. */
    public static void alike() {
        Map<String, Object> said = new LinkedHashMap<>();
        said.put("name", "charge");
        said.put("fn", "charge");
        said.put("args", Arrays.asList("lamp"));
        for (String key : new String[] {"", "name", "fn", "version", "args", "kwargs", "again", "by"}) {
            Map<String, Object> other = new LinkedHashMap<>(said);
            if (!key.isEmpty()) {
                other.put(key, key.equals("args") ? Arrays.asList("desk") : key.equals("kwargs") ? said : said.containsKey(key) ? "ship"
                        : (Object) 2L);
            }
            is(key + new StoredPlan.StageSpec(other, 7).isAlike(new StoredPlan.StageSpec(said, 7)), key + key.isEmpty());
        }
        for (long stage : new long[] {-1, 7}) { // (a stage goes on with lower ones)
            Map<String, Object> wrong = new LinkedHashMap<>(said);
            wrong.put("to", stage);
            thrown(IllegalArgumentException.class, () -> new StoredPlan.StageSpec(wrong, 7));
        }
        said.remove("args");
        is(new StoredPlan.StageSpec(said, 7).isAlike(new StoredPlan.StageSpec(new LinkedHashMap<>(said), 7)), true);
    }

    /** A store that is closed has no connection open. */
    public static void closes(InFile file) {
        try (JdbcStore store = file.open()) {
            store.open("closes", StoredPlan.text("", Collections.emptyList(), Collections.emptyMap()));
            is(opened(file.path) > 0, true);
        }
        is(opened(file.path), 0L);
    }
}
