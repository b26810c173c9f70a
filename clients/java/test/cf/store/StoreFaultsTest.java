package cf.store;

import static cf.service.Checks.is;
import static cf.service.Checks.thrown;
import static cf.service.Checks.until;

import cf.internal.Form;
import cf.internal.Host;
import cf.internal.Layout;
import cf.internal.Words;
import cf.store.StoresTest.Database;
import cf.store.StoresTest.InFile;
import cf.store.StoresTest.InPostgres;
import java.lang.reflect.Proxy;
import java.nio.file.Files;
import java.nio.file.Path;
import java.nio.file.Paths;
import java.sql.Connection;
import java.sql.PreparedStatement;
import java.sql.ResultSet;
import java.sql.SQLException;
import java.sql.Statement;
import java.util.ArrayDeque;
import java.util.ArrayList;
import java.util.Arrays;
import java.util.Collections;
import java.util.Deque;
import java.util.HashMap;
import java.util.List;
import java.util.Map;
import java.util.Set;
import java.util.concurrent.CompletableFuture;
import java.util.concurrent.CountDownLatch;
import java.util.concurrent.ExecutionException;
import java.util.concurrent.TimeUnit;
import java.util.concurrent.TimeoutException;
import java.util.concurrent.atomic.AtomicBoolean;
import java.util.concurrent.atomic.AtomicInteger;
import java.util.function.Consumer;
import java.util.stream.Collectors;
import java.util.stream.IntStream;

/** What if a store is slow, refuses something for a while, is silent, or breaks a call off; and if a process is taken for gone that is there? */
public final class StoreFaultsTest {
    private static final long LEASE = 1_000_000; // nanoseconds

    private StoreFaultsTest() {}

    /** A host whose clock and threads a test has: jobs are done where it says so. */
    private static final class ByHand extends Host {
        final Deque<Runnable> jobs = new ArrayDeque<>();
        long clock;

        @Override
        public long nanoTime() {
            return clock;
        }

        @Override
        public void sleep(long millis) {
            clock += millis * 1_000_000;
        }

        @Override
        public void startThreads(int threads, Runnable looks) {}

        @Override
        public void execute(Job job, String request, Runnable act) {
            jobs.add(act);
        }

        @Override
        public void shutDown() {}

        @Override
        public void warn(String text, String request, Throwable thrown) {}

        @Override
        public void warnBroken(String text, boolean isDropped) {}

        /** Some time passes, and a service that has this host looks what is new, and does what is to be done. */
        void looks(StoreService service, long nanos) {
            clock += nanos;
            service.runRound();
            while (!jobs.isEmpty()) {
                jobs.poll().run();
            }
        }
    }

    private static StoreService service(Store store, Functions functions, ByHand host) {
        return StoreService.builder(store, functions).threads(1).lease(LEASE, TimeUnit.NANOSECONDS).takesAll(true).host(host).build();
    }

    /** Who reads many requests for the first time, each of which takes a while, says all along that he is there. */
    public static void beats(InFile file) {
        try (StoreService asks = StoresTest.service(file, new Functions(), 0, false)) {
            for (int k = 0; k < 20; k++) {
                asks.request("open " + k);
            }
        }
        ByHand host = new ByHand();
        List<Long> pauses = new ArrayList<>();
        long[] last = {0};
        Store slow = StoresTest.seen(file.open(), (call, args) -> {
            if (call.equals("beat")) {
                pauses.add(host.clock - last[0]);
                last[0] = host.clock;
            }
            host.clock += call.equals("read") ? LEASE / 10 : 0;
            return null;
        });
        try (StoreService works = service(slow, new Functions(), host)) {
            works.runRound();
            pauses.add(host.clock - last[0]);
            is(host.clock, 2 * LEASE);
            is(Collections.max(pauses) <= LEASE / 2, true);
        }
    }

    /** What stands in a request that a service first meets, it begins at once, and not with the next beat. */
    public static void beginsAtOnce(InFile file) throws Exception {
        ByHand host = new ByHand();
        Functions functions = new Functions().with("seven", 1, () -> 7L);
        try (StoreService asks = StoresTest.service(file, functions, 0, false); StoreService works = service(file.open(), functions, host)) {
            host.looks(works, 0); // (no other beat is due as long as the clock stands)
            StoredStage begun = asks.request("begun").supply("seven");
            host.looks(works, 0);
            is(StoresTest.end(begun), 7L);
        }
    }

    /** What a relay makes ready is called at once, and not with the next beat. */
    public static void relaysAtOnce(InFile file) {
        ByHand host = new ByHand();
        Functions functions = new Functions().with("inc", 1, number -> (Long) number + 1)
                .composing("gives", 1, (request, number) -> request.stage("number"));
        try (StoreService works = service(file.open(), functions, host)) {
            StoredStage number = works.request("relays").promise("number"), last = number.compose("gives").then("inc");
            host.looks(works, 0);
            number.complete(40);
            host.looks(works, 0); // (no other beat is due as long as the clock stands)
            is(last.isDone(), true);
        }
    }

    /**
     * A process is cut off within a function that composes, and a further try goes on in another process: it finds what the first one has attached. That
     * one attaches nothing any more.
     */
    public static void composesAgain(InFile file) throws Exception {
        ByHand first = new ByHand(), second = new ByHand();
        List<String> done = new ArrayList<>();
        StoreService[] heirs = new StoreService[1];
        Functions functions = new Functions().composing("order", 1, (request, item) -> {
            done.add("order");
            StoredStage paid = request.supply("charge", item, 2), told = request.supply("charge", item, 2);
            if (done.size() == 1) {
                for (int looks = 0; looks < 6; looks++) {
                    second.looks(heirs[0], LEASE);
                }
            }
            return paid.combine(told, "ship");
        }).with("charge", 1, (item, count) -> {
            done.add("charge " + count + " " + item);
            return item;
        }).with("ship", 1, (item, other) -> {
            done.add("ship");
            return item;
        });
        try (StoreService works = service(file.open(), functions, first); StoreService heir = service(file.open(), functions, second)) {
            heirs[0] = heir;
            StoredRequest request = works.request("composes again");
            StoredStage item = request.promise("item"), ordered = item.compose("order"), last = ordered.again(1).again(1);
            item.complete("lamp");
            heir.open("composes again");
            first.looks(works, 0);
            first.looks(works, 1);
            is(StoresTest.end(last), "lamp");
            is(StoresTest.remote(ordered).kind(), RemoteException.ABANDONED);
            is(done, Arrays.asList("order", "charge 2 lamp", "charge 2 lamp", "order", "ship"));
            is(request.stage(last.number() + 3).name() + " " + request.stage(last.number() + 4), "ship null");
            is(request.withView(view -> Arrays.toString(view.sources(last.number() + 3))), "[7, 8]");
        }
    }

    /** A service that is closed waits for the functions that run, and says meanwhile that it is there. */
    public static void closes(InFile file) throws Exception {
        CountDownLatch began = new CountDownLatch(1), goesOn = new CountDownLatch(1);
        Functions functions = new Functions().with("slow", 1, () -> {
            began.countDown();
            goesOn.await();
            return 7L;
        });
        try (Store store = file.open(); StoreService asks = StoresTest.service(file, functions, 0, false)) {
            StoreService works = StoreService.builder(file.open(), functions).threads(1).lease(50, TimeUnit.MILLISECONDS).takesAll(true).build();
            StoredStage slow = works.request("closes").supply("slow");
            began.await();
            Thread closes = new Thread(works::close);
            closes.start();
            while (!works.isStopped()) {
                Thread.sleep(1);
            }
            long before = store.beats().get(works.session);
            until(() -> store.beats().get(works.session) >= before + 3);
            goesOn.countDown();
            closes.join();
            is(StoresTest.end(asks.open("closes").stage(slow.number())), 7L);
            is(store.beats().containsKey(works.session), false);
        }
    }

    /** Nobody waits for ever whose service is closed: not who waits, also in a request that was closed, and not who asks for a stage then. */
    public static void over(InFile file) throws Exception {
        StoreService service;
        StoredRequest request;
        StoredStage waits;
        try (StoreService other = StoresTest.service(file, new Functions())) {
            StoredRequest theirs = other.request("over");
            theirs.promise("open");
            theirs.promise("settled").complete(7);
            service = StoresTest.hasty(file, new Functions());
            request = service.request("over");
            waits = service.request("closed").promise("waits");
            other.open("closed").end();
            until(() -> service.findServed("closed") == null); // (it is let go, since it is closed)
        }
        service.close();
        is(StoresTest.end(waits).getClass(), IllegalStateException.class);
        is(StoresTest.end(request.stage(0)).getClass(), IllegalStateException.class);
        is(StoresTest.end(request.stage(1)), 7L);
    }

    /** Which of PostgreSQL's errors say that the same may be asked again. */
    public static void away() {
        JdbcStore store = new PostgresStore("jdbc:postgresql:none");
        String[] away = {null, "08006", "25006", "26000", "40001", "40P01", "53100", "53300", "55P03", "57014", "57P01", "57P03", "58030"};
        for (String state : away) {
            is(store.isAway(new SQLException("away", state)) + " " + state, "true " + state);
        }
        for (String state : new String[] {"22001", "23505", "23514", "25P02", "42501", "42P01", "54000", "54001", "P0001", "XX001"}) {
            is(store.isAway(new SQLException("refused", state)) + " " + state, "false " + state);
        }
    }

    /** While a payload can't be read nobody has the request's lock; and it is told soon after it can be, also in a request that was closed. */
    public static void unread(InFile file) throws Exception {
        CountDownLatch asked = new CountDownLatch(1), goesOn = new CountDownLatch(1);
        AtomicBoolean isSilent = new AtomicBoolean(true);
        Store silent = StoresTest.seen(file.open(), (call, args) -> {
            if (!call.equals("payload") || !isSilent.get()) {
                return null;
            }
            asked.countDown();
            try {
                goesOn.await();
            } catch (InterruptedException interrupted) {
                throw new AssertionError(interrupted);
            }
            throw new StoreException.Unknown("silent", null);
        });
        try (StoreService completes = StoresTest.service(file, new Functions()); StoreService waits = StoresTest.hasty(() -> silent, new Functions())) {
            StoredRequest theirs = completes.request("unread"), request;
            StoredStage promise = theirs.promise("promise"), stage;
            request = waits.open("unread");
            stage = request.stage(0);
            promise.complete(7);
            asked.await();
            until(() -> request.withViewIfFree(view -> true, false));
            is(stage.isDone(), false);
            thrown(TimeoutException.class, () -> stage.get(1, TimeUnit.MILLISECONDS));
            theirs.end();
            goesOn.countDown();
            until(() -> waits.findServed("unread") == null); // (it is let go, since it is closed)
            is(stage.isDone(), false);
            isSilent.set(false);
            is(stage.get(60, TimeUnit.SECONDS), 7L);
        }
    }

    // Calls that are broken off.

    private static final String[] TABLES = {"cf_request", "cf_word", "cf_beat", "cf_timer", "cf_glance", "cf_name", "effect"};

    /** Puts a large payload beside its word, not into it. */
    private static boolean hasLarge(Database at) {
        return at instanceof InFile;
    }

    /** Aborts a change of a table: the one that makes the number in {@code cut} zero. */
    private static void makeTriggers(Database at, Statement db) throws SQLException {
        db.execute("create table effect (name text)");
        db.execute("create table cut (changes integer)");
        db.execute("insert into cut values (0)");
        String counts = "update cut set changes = changes - 1; ", isZero = "(select changes from cut) = 0";
        boolean isSqlite = at instanceof InFile;
        if (!isSqlite) {
            db.execute("create function cuts() returns trigger language plpgsql as $$ begin " + counts + "if " + isZero
                    + " then raise exception 'cut off'; end if; return case when tg_op = 'DELETE' then old else new end; end $$");
        }
        for (String table : tables(at)) {
            for (String change : new String[] {"insert", "update", "delete"}) {
                db.execute("create trigger " + change + "_" + table + " before " + change + " on " + table + (isSqlite
                        ? " begin " + counts + "select raise(abort, 'cut off') where " + isZero + "; end" : " for each row execute function cuts()"));
            }
        }
    }

    private static List<String> tables(Database at) {
        List<String> tables = new ArrayList<>(Arrays.asList(TABLES));
        if (hasLarge(at)) {
            tables.add("cf_large");
        }
        return tables;
    }

    /** All that stands. */
    private static String all(Database at, Statement db) throws SQLException {
        StringBuilder text = new StringBuilder();
        for (String table : tables(at)) {
            try (ResultSet rows = db.executeQuery("select * from " + table + " order by 1")) {
                while (rows.next()) {
                    text.append('\n').append(table);
                    for (int k = 1; k <= rows.getMetaData().getColumnCount(); k++) {
                        Object value = rows.getObject(k);
                        text.append(' ').append(value instanceof byte[] ? Arrays.hashCode((byte[]) value) : value);
                    }
                }
            }
        }
        return text.toString();
    }

    private static Store.Put put(Store.Opened to, int at, int many, byte[]... payloads) {
        return put(to, at, many, false, payloads);
    }

    private static Store.Put put(Store.Opened to, int at, int many, boolean opens, byte[]... payloads) {
        List<Store.Entry> entries = new ArrayList<>();
        Map<Integer, byte[]> given = new HashMap<>();
        for (int k = 0; k < many; k++) {
            entries.add(new Store.Entry(at + k, at + k));
        }
        for (int k = 0; k < payloads.length; k++) {
            given.put(at + 1 + k, payloads[k]);
        }
        return new Store.Put(to.name, to.number, at, entries, given, opens);
    }

    /** Each call of a store is broken off at each change that it makes: then nothing of it stands, nothing is held, and it can be made again. */
    public static void brokenOff(Database at) throws Exception {
        try (JdbcStore store = at.open(); Connection beside = at.connect(); Statement db = beside.createStatement()) {
            makeTriggers(at, db);
            Store.Opened to = store.open("broken off", "{}");
            byte[] small = {7}, large = new byte[5000];
            List<Runnable> calls = Arrays.asList(() -> store.open("another", "{}"), () -> store.append(put(to, 0, 1, small)),
                    () -> store.append(put(to, 1, 1, large)), () -> store.append(put(to, 2, 2, small)), () -> store.append(put(to, 4, 3, large, large, small)),
                    () -> store.setTimer(new Store.Timer("broken off", to.number, 0, 1e12, small)), () -> store.beat(1),
                    () -> store.nameSession(1, "one"), () -> store.end("broken off", to.number, 7), () -> store.append(put(to, 7, 2, true, large)),
                    () -> store.setTimer(new Store.Timer("broken off", to.number, 0, 1e12, small)),
                    () -> store.dropTimer(new Store.Timer("broken off", to.number, 0, 0, small)), () -> store.dropBeat(1), () -> transacts(store, to));
            List<Integer> changes = new ArrayList<>();
            for (Runnable call : calls) {
                if (changes.size() == 8) { // (it is about to be closed)
                    db.execute("update cut set changes = 0");
                    db.execute("insert into cf_glance values (" + to.number + ", 7, '')");
                }
                changes.add(brokenOff(at, db, call));
            }
            // How many changes each makes: where a request is closed its timer and glance go.
            is(changes, hasLarge(at) ? Arrays.asList(1, 1, 2, 2, 5, 1, 1, 1, 3, 4, 1, 1, 2, 4) : Arrays.asList(1, 1, 1, 2, 3, 1, 1, 1, 3, 3, 1, 1, 2, 3));
            is(store.read("broken off", to.number, 0).size(), 10);
        }
    }

    private static int brokenOff(Database at, Statement db, Runnable call) throws Exception {
        for (int change = 1;; change++) {
            db.execute("update cut set changes = " + change);
            String before = all(at, db);
            try {
                call.run();
                return change - 1;
            } catch (StoreException refused) {
                is(refused.getMessage().contains("cut off") ? "cut off" : refused.toString(), "cut off");
                is(all(at, db), before);
            }
        }
    }

    /** A function's effect of two changes, and its finish, of a word and a large payload. */
    private static void transacts(Store store, Store.Opened to) {
        try (Store.Transaction transaction = store.transaction()) {
            for (int k = 0; k < 2; k++) {
                try (PreparedStatement made = transaction.connection().prepareStatement("insert into effect values ('paid')")) {
                    made.executeUpdate();
                } catch (SQLException refused) {
                    throw new StoreException(refused.getMessage(), refused);
                }
            }
            is(transaction.append(put(to, 9, 1, new byte[5000])), true);
            transaction.commit();
        }
    }

    /** A transaction that can't begin says that the store is away, and leaves its turn to write to others. */
    public static void cantBegin(InFile file) throws Exception {
        String line = file.path + "-line";
        Path path = Paths.get(file.path), aside = Paths.get(file.path + " aside");
        try (JdbcStore store = file.open()) {
            Files.move(path, aside);
            Files.createDirectory(path);
            thrown(StoreException.Unknown.class, store::transaction);
            is(new ProcessBuilder("flock", "-n", line, "true").start().waitFor(), 0);
            Files.delete(path);
            Files.move(aside, path);
            store.transaction().close();
            store.beat(1);
        }
    }

    /** What is thrown within a transaction undoes all of it, whatever it is. */
    public static void undone(Database at) {
        try (JdbcStore store = at.open()) {
            for (Throwable fault : new Throwable[] {new SQLException("refused"), new IllegalStateException("wrong"), new OutOfMemoryError("none left")}) {
                thrown(Throwable.class, () -> store.inOwnTransaction(db -> {
                    db.change(Sql.BEAT, 7L);
                    throw StoreFaultsTest.<RuntimeException>sneaky(fault);
                }));
                is(store.beats(), Collections.emptyMap());
            }
        }
    }

    /** A put that somebody's own trigger refuses is refused, whatever it says, and its request isn't taken for dropped. */
    public static void forbidden(Database at) throws Exception {
        boolean isSqlite = at instanceof InFile;
        try (JdbcStore store = at.open(); Connection beside = at.connect(); Statement db = beside.createStatement()) {
            if (!isSqlite) {
                db.execute("create function forbids() returns trigger language plpgsql as "
                        + "$$ begin raise exception 'UNIQUE' using errcode = '23505'; end $$");
            }
            db.execute("create trigger forbids before insert on cf_word" + (isSqlite ? " when new.token = 13 begin select raise(abort, 'UNIQUE'); end"
                    : " for each row when (new.token = 13) execute function forbids()"));
            Store.Opened to = store.open("forbidden", "{}");
            for (int many = 1; many <= 3; many++) {
                List<Store.Entry> entries = new ArrayList<>();
                for (int k = 1; k <= many; k++) {
                    entries.add(new Store.Entry(1, k == many ? 13 : k));
                }
                for (boolean opens : new boolean[] {false, true}) {
                    Store.Put put = new Store.Put(to.name, to.number, 0, entries, Collections.emptyMap(), opens);
                    StoreException refused = thrown(StoreException.class, () -> store.append(put));
                    is(refused.getClass() + " " + refused.getMessage().contains("UNIQUE"), StoreException.class + " true");
                    is(store.read(to.name, to.number, 0).size(), 0);
                }
            }
        }
    }

    // PostgreSQL alone.

    /** Who connects waits for no transaction, since the tables are there. */
    public static void connects(InPostgres at) throws SQLException {
        try (JdbcStore store = at.open(); Connection beside = at.connect(); Statement db = beside.createStatement()) {
            beside.setAutoCommit(false);
            db.execute("insert into cf_word values (1, 1, 1, 1)");
            JdbcStore.open(at.url() + "&options=-c%20lock_timeout=50").close();
            is(store.beats(), Collections.emptyMap());
        }
    }

    /** A server that can only be read later, as in a switch-over, is away, and so is one that lets nobody in. One that can't be written to is refused. */
    public static void switchesOver(InPostgres at) throws SQLException {
        String role = "cf_role_" + ProcessHandle.current().pid(), url = at.url().replaceFirst("user=[^&]*", "user=" + role);
        at.open().close();
        thrown(StoreException.Unknown.class, () -> JdbcStore.open(url));
        try (Connection beside = at.connect(); Statement db = beside.createStatement()) {
            db.execute("create role " + role + " superuser login");
            try (JdbcStore store = JdbcStore.open(url)) {
                db.execute("alter role " + role + " set default_transaction_read_only = on");
                thrown(StoreException.Unknown.class, store::transaction);
                is(thrown(StoreException.class, () -> JdbcStore.open(url)).getClass(), StoreException.class);
                db.execute("alter role " + role + " reset all");
                store.transaction().close();
            }
            db.execute("drop role " + role);
        }
    }

    /** Somebody drops a request while another puts to it: the put waits for that, and finds none; or the drop waits, and what was put goes, too. */
    public static void dropped(InPostgres at) throws Exception {
        try (JdbcStore store = at.open(); Connection drops = at.connect(); Statement db = drops.createStatement()) {
            drops.setAutoCommit(false);
            List<Consumer<Store.Opened>> puts = Arrays.asList(to -> store.append(put(to, 0, 1)), to -> store.append(put(to, 0, 2)),
                    to -> store.append(put(to, 0, 3)), to -> store.setTimer(new Store.Timer(to.name, to.number, 0, 1e12, new byte[] {'N'})), to -> {
                        try (Store.Transaction transaction = store.transaction()) {
                            is(transaction.append(put(to, 0, 1)), false);
                        }
                        throw new StoreException.Gone(to.name);
                    });
            for (Consumer<Store.Opened> put : puts) {
                Store.Opened to = store.open("dropped", "{}");
                db.execute("delete from cf_request where id = " + to.number);
                CompletableFuture<Void> told = CompletableFuture.runAsync(() -> put.accept(to));
                awaitLock(at, told);
                drops.commit();
                is(thrown(ExecutionException.class, () -> told.get(60, TimeUnit.SECONDS)).getCause().getClass(), StoreException.Gone.class);
                is(left(db), 0);
                drops.commit();
            }
            Store.Opened to = store.open("dropped", "{}");
            CompletableFuture<Void> dropped;
            try (Store.Transaction transaction = store.transaction()) {
                is(transaction.append(put(to, 0, 1)), true);
                dropped = CompletableFuture.runAsync(() -> {
                    try {
                        db.execute("select 1 from cf_request where id = " + to.number + " for update");
                        db.execute("delete from cf_word where request = " + to.number);
                        db.execute("delete from cf_request where id = " + to.number);
                        drops.commit();
                    } catch (SQLException refused) {
                        throw new AssertionError(refused);
                    }
                });
                awaitLock(at, dropped);
                is(dropped.isDone(), false);
                transaction.commit();
            }
            dropped.get(60, TimeUnit.SECONDS);
            is(left(db), 0);
        }
    }

    /** How many words and timers are left. */
    private static int left(Statement db) throws SQLException {
        try (ResultSet rows = db.executeQuery("select (select count(*) from cf_word) + (select count(*) from cf_timer)")) {
            rows.next();
            return rows.getInt(1);
        }
    }

    /** Waits until somebody waits for a lock in the database, or for what is done. */
    private static void awaitLock(InPostgres at, CompletableFuture<?> done) throws Exception {
        try (Connection beside = at.connect(); Statement db = beside.createStatement()) {
            while (!done.isDone()) {
                try (ResultSet rows = db.executeQuery("select 1 from pg_locks where not granted")) {
                    if (rows.next()) {
                        return;
                    }
                }
            }
        }
    }

    /** Somebody has the table of words for longer than this process waits for a lock: what a function gave is put again. */
    public static void lockedOut(InPostgres at) throws Exception {
        CountDownLatch runs = new CountDownLatch(1), goesOn = new CountDownLatch(1);
        Functions functions = new Functions().with("seven", 1, () -> {
            runs.countDown();
            goesOn.await();
            return 7L;
        });
        Host host = new Host() {
            @Override
            public void warn(String text, String request, Throwable thrown) {}
        };
        Store impatient = JdbcStore.open(at.url() + "&options=-c%20lock_timeout=20");
        try (StoreService service = StoreService.builder(impatient, functions).threads(1).host(host).build();
                Connection locks = at.connect(); Statement db = locks.createStatement()) {
            StoredStage seven = service.request("locked out").supply("seven");
            runs.await();
            locks.setAutoCommit(false);
            db.execute("lock table cf_word in access exclusive mode");
            goesOn.countDown();
            try (Connection beside = at.connect(); Statement looks = beside.createStatement()) {
                for (int waits = 0; waits < 2;) { // (the put is tried again)
                    try (ResultSet rows = looks.executeQuery("select count(*) from pg_locks where not granted")) {
                        rows.next();
                        waits += rows.getInt(1);
                    }
                    Thread.sleep(15);
                }
            }
            locks.commit();
            is(StoresTest.end(seven), 7L);
        }
    }

    @SuppressWarnings("unchecked")
    private static <X extends Throwable> X sneaky(Throwable thrown) throws X {
        throw (X) thrown;
    }

    /** A row is broken that says that a function gave a stage which isn't there, or that has lost which one it was. */
    public static void givesNoStage(InFile file) {
        for (boolean isLost : new boolean[] {false, true}) {
            Store wrong = StoresTest.seen(file.open(), (call, args) -> {
                if (call.equals("append")) {
                    Store.Put put = (Store.Put) args[0];
                    Map<Integer, byte[]> payloads = new HashMap<>(put.payloads);
                    payloads.values().removeIf(its -> isLost && Arrays.equals(its, given(3)));
                    payloads.replaceAll((place, its) -> Arrays.equals(its, given(3)) ? given(99) : its);
                    args[0] = new Store.Put(put.request, put.number, put.at, put.entries, payloads, put.opens);
                }
                return null;
            });
            Functions functions = new Functions().composing("gives", 1, (request, item) -> request.promise("given"));
            ByHand host = new ByHand();
            try (StoreService works = service(wrong, functions, host); StoreService reads = service(file.open(), functions, new ByHand())) {
                StoredRequest request = works.request("gives no stage, " + isLost);
                StoredStage item = request.promise("item");
                item.compose("gives");
                item.complete(1);
                host.looks(works, 0);
                String why = thrown(StoreException.Broken.class, () -> reads.open(request.name).withView(RowView::relayWord)).getMessage();
                is(why.endsWith(isLost ? "no payload is there, and a word names it" : "there is no stage 99") ? "" : why, "");
            }
        }
    }

    /** What a row has of a function that gave this stage. */
    private static byte[] given(int stage) {
        return Json.write(Collections.singletonMap("stage", stage));
    }

    /** Which of SQLite's errors say so. */
    public static void awayFromFile() {
        JdbcStore store = new SqliteStore("jdbc:sqlite::memory:");
        for (int code : new int[] {1, 3, 4, 5, 6, 7, 8, 9, 10, 13, 14, 15, 17, 10 | 3 << 8}) {
            is(store.isAway(new SQLException("away", null, code)) + " " + code, "true " + code);
        }
        for (int code : new int[] {11, 12, 18, 19, 20, 21, 26, 19 | 8 << 8}) {
            is(store.isAway(new SQLException("refused", null, code)) + " " + code, "false " + code);
        }
    }

    /** A service says once what its session is called, and again that it is there. */
    public static void namesItself(InFile file) {
        List<String> calls = new ArrayList<>();
        Store seen = StoresTest.seen(file.open(), (call, args) -> {
            calls.add(call);
            return null;
        });
        ByHand host = new ByHand();
        try (StoreService service = service(seen, new Functions(), host)) {
            for (int looks = 0; looks < 3; looks++) {
                host.looks(service, LEASE);
            }
            is(Collections.frequency(calls, "beat") + " " + Collections.frequency(calls, "nameSession"), "3 1");
        }
    }

    /** An open request stays known where a look finds nothing new of it. */
    public static void keepsOpen(InFile file) {
        ByHand host = new ByHand();
        try (StoreService service = service(file.open(), new Functions(), host)) {
            service.request("open").promise("promise");
            for (int looks = 0; looks < 3; looks++) {
                host.looks(service, 1);
            }
            is(service.findServed("open") != null, true);
        }
    }

    /** Who waits for a change in a database waits while there is none. */
    public static void quiet(Database at) throws Exception {
        try (Store store = at.open()) {
            store.open("quiet", StoredPlan.text("", Collections.emptyList(), Collections.emptyMap()));
            quiet(store, 100);
        }
    }

    /** Of four waits the longest lasts for so many milliseconds: some end at once, as where a connection is made first. */
    static void quiet(Store store, int millis) throws InterruptedException {
        List<Long> lasted = new ArrayList<>();
        for (int waits = 0; waits < 4; waits++) {
            long began = System.nanoTime();
            store.awaitChange(millis);
            lasted.add((System.nanoTime() - began) / 1_000_000);
        }
        is(Collections.max(lasted) >= millis - millis / 20 ? "" : lasted.toString(), "");
    }

    /** Nobody sends notices of puts any more once a store is closed. */
    public static void noticesEnd(InPostgres at) throws Exception {
        Set<Thread> others = notifying(), its;
        try (Store store = at.open()) {
            Store.Opened opened = store.open("notices", StoredPlan.text("", Collections.emptyList(), Collections.emptyMap()));
            store.append(new Store.Put(opened.name, opened.number, 0, Arrays.asList(new Store.Entry(1, 1)), Collections.emptyMap(), false));
            its = notifying();
            its.removeAll(others);
            is(its.size(), 1);
            for (Thread each : its) {
                while (each.getState() != Thread.State.WAITING) {
                    Thread.sleep(1); // (it sends the first one)
                }
            }
        }
        for (Thread each : its) {
            each.join(60_000);
            is(each.isAlive(), false);
        }
    }

    private static Set<Thread> notifying() {
        return Thread.getAllStackTraces().keySet().stream().filter(it -> it.getName().equals("cf-notify")).collect(Collectors.toSet());
    }

    /** The library refuses a put of no words. */
    public static void plansNothing() {
        StoredPlan plan = new StoredPlan(StoredPlan.text("", Collections.emptyList(), Collections.emptyMap()), "plans nothing");
        try (NativeRow row = new NativeRow(plan.rows, 8, 0, 1)) {
            thrown(NativeRow.Refusal.class, () -> row.planPut(new long[0]));
        }
    }

    /** An entry that changes more stages than are brought at once changes all of them. */
    public static void changesMany() {
        int[] plan = new int[3 + 4 * 200]; // A promise, and the others behind it.
        plan[1] = -1;
        for (int at = 3; at < plan.length; at += 4) {
            plan[at] = Form.APPLY.ordinal();
            plan[at + 2] = 1;
        }
        try (NativeRow row = new NativeRow(plan, 8, 0, 1)) {
            long[] words = {Words.fail(0, 0, 7)};
            long token = row.planPut(words);
            is(row.landed(words[0], token), true);
            is(row.takeIn(words[0], token).answer, 1);
            List<Integer> seen = new ArrayList<>();
            row.forEachSettled((outcome, stage) -> {
                is(outcome.kind + " " + outcome.place + " " + outcome.isWrapped, Layout.THROWN + " 7 " + (stage > 0));
                seen.add(stage);
            });
            is(seen, IntStream.rangeClosed(0, 200).boxed().collect(Collectors.toList()));
        }
    }

    /** A statement is prepared once, and one that failed is closed and prepared anew. */
    public static void prepared() throws SQLException {
        List<String> told = new ArrayList<>();
        AtomicBoolean fails = new AtomicBoolean();
        PreparedStatement statement = proxy(PreparedStatement.class, method -> {
            told.add(method);
            if (fails.get() && method.equals("executeUpdate")) {
                throw new SQLException("refused");
            }
            return method.equals("executeUpdate") ? 1 : null;
        });
        PreparedConnection db = new PreparedConnection(proxy(Connection.class, method -> {
            told.add(method);
            return statement;
        }), Sql.Engine.SQLITE);
        is(db.change(Sql.BEAT, 7L) + db.change(Sql.BEAT, 7L), 2);
        is(told, Arrays.asList("prepareStatement", "setObject", "executeUpdate", "setObject", "executeUpdate"));
        fails.set(true);
        thrown(SQLException.class, () -> db.change(Sql.BEAT, 7L));
        fails.set(false);
        told.clear();
        is(db.change(Sql.BEAT, 7L), 1);
        is(told, Arrays.asList("prepareStatement", "setObject", "executeUpdate"));
    }

    private interface Answers {
        Object of(String method) throws SQLException;
    }

    private static <T> T proxy(Class<T> kind, Answers answers) {
        return kind.cast(Proxy.newProxyInstance(kind.getClassLoader(), new Class<?>[] {kind}, (proxy, method, args) -> answers.of(method.getName())));
    }
}
