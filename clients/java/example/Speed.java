import cf.store.EtcdStore;
import cf.store.Functions;
import cf.store.JdbcStore;
import cf.store.Store;
import cf.store.StoreService;
import cf.store.StoredRequest;
import java.io.IOException;
import java.io.InputStream;
import java.io.OutputStream;
import java.net.HttpURLConnection;
import java.net.URL;
import java.nio.charset.StandardCharsets;
import java.sql.Connection;
import java.sql.DriverManager;
import java.sql.PreparedStatement;
import java.sql.SQLException;
import java.sql.Statement;
import java.util.ArrayList;
import java.util.Base64;
import java.util.List;
import java.util.concurrent.atomic.AtomicInteger;

/**
 * Words a second that a service puts, beside a bare loop of the same insert by JDBC, or to etcd by Java's own HTTP, on one thread. Each way has its
 * turn for a while, again and again, so that whatever else the machine does falls on all of them. It is called with an address of JDBC's, or etcd's
 * as {@code HOST:PORT}, and for how many seconds, or 6.
 */
public final class Speed {
    private static final long SLICE = 500_000_000L; // ns
    private static final byte[] PAYLOAD = "{\"name\":\"s\",\"fn\":\"s\",\"version\":1}".getBytes(StandardCharsets.UTF_8);
    /** Stages of a request, of which each takes a word to attach, and two to be claimed and finished. */
    private static final int STAGES = 200;

    private final String address;
    private final StoreService planner;
    private final Insert insert;
    /** Threads that put at once, each to a request of its own. */
    private static final int THREADS = 8;
    /** Words and nanoseconds of: the bare loop; one word a put; finishes with the next claim; one word a put by each of several threads. */
    private final long[][] told = new long[4][2];
    private final long run = System.currentTimeMillis();
    private int number;
    private long at;

    /** The engine's own put by its driver alone, in a table or under keys of its own that are alike. */
    private interface Insert {
        void put(long request, int place, long token) throws SQLException, IOException;
    }

    private Speed(String address) throws SQLException {
        this.address = address;
        planner = service(0, new Functions().with("s", 1, () -> 1));
        insert = address.startsWith("jdbc:") ? byJdbc(address) : byHttp(address.split(",")[0]);
    }

    private static Insert byJdbc(String address) throws SQLException {
        Connection bare = DriverManager.getConnection(address);
        boolean isSqlite = address.startsWith("jdbc:sqlite:");
        String[] made = isSqlite ? new String[] {"pragma journal_mode=wal", "pragma synchronous=full",
            "create table if not exists cf_bare (n integer primary key, request integer, at integer, word integer not null, token integer not null, "
                    + "payload blob, unique (request, at))"} : new String[] {"create table if not exists cf_bare (like cf_word including all)"};
        for (String statement : made) {
            try (Statement make = bare.createStatement()) {
                make.execute(statement);
            }
        }
        PreparedStatement insert = bare.prepareStatement(
                "insert into cf_bare (request, at, word, token, payload) values (?, ?, ?, ?, ?) on conflict do nothing");
        return (request, place, token) -> {
            insert.setLong(1, request);
            insert.setInt(2, place);
            insert.setLong(3, 1);
            insert.setLong(4, token);
            insert.setBytes(5, PAYLOAD);
            insert.executeUpdate();
        };
    }

    private static Insert byHttp(String member) {
        return (request, place, token) -> {
            String key = base64(String.format("bare/%012d/%06d", request, place));
            String payload = base64(String.format("barep/%012d/%06d", request, place));
            String body = "{\"compare\":[{\"key\":\"" + key + "\",\"target\":\"VERSION\",\"version\":0}],\"success\":[{\"request_put\":{\"key\":\""
                    + key + "\",\"value\":\"" + base64("1 " + Long.toHexString(token)) + "\"}},{\"request_put\":{\"key\":\"" + payload
                    + "\",\"value\":\"" + Base64.getEncoder().encodeToString(PAYLOAD) + "\"}}]}";
            HttpURLConnection call = (HttpURLConnection) new URL("http://" + member + "/v3/kv/txn").openConnection();
            call.setDoOutput(true);
            try (OutputStream out = call.getOutputStream()) {
                out.write(body.getBytes(StandardCharsets.UTF_8));
            }
            try (InputStream in = call.getInputStream()) {
                while (in.read(new byte[1024]) >= 0) { // (to its end, so that the connection is kept)
                    continue;
                }
            }
        };
    }

    private static String base64(String text) {
        return Base64.getEncoder().encodeToString(text.getBytes(StandardCharsets.UTF_8));
    }

    private StoreService service(int threads, Functions functions) {
        Store store = address.startsWith("jdbc:") ? JdbcStore.open(address) : EtcdStore.open(address);
        return StoreService.builder(store, functions).threads(threads).build();
    }

    private void slice() throws Exception {
        long began = System.nanoTime(), words = 0;
        for (; System.nanoTime() - began < SLICE; words++, at++) {
            insert.put(run + at / STAGES, (int) (at % STAGES), at);
        }
        add(0, words, began);
        List<String> requests = new ArrayList<>();
        StoredRequest request = null;
        began = System.nanoTime();
        for (words = 0; System.nanoTime() - began < SLICE; words++) {
            if (words % STAGES == 0) {
                requests.add("speed " + run + " " + number++);
                request = planner.request(requests.get(requests.size() - 1));
            }
            request.supply("s");
        }
        add(1, words, began);
        AtomicInteger calls = new AtomicInteger();
        try (StoreService worker = service(1, new Functions().with("s", 1, calls::incrementAndGet))) {
            began = System.nanoTime();
            for (String name : requests) {
                worker.open(name);
            }
            while (calls.get() < words) {
                Thread.sleep(1);
            }
            add(2, 2 * words, began);
        }
        for (String name : requests) {
            planner.open(name).end();
        }
        byThreads();
    }

    private void byThreads() throws InterruptedException {
        List<StoredRequest> requests = new ArrayList<>();
        for (int k = 0; k < THREADS; k++) {
            requests.add(planner.request("speed " + run + " " + number++));
        }
        AtomicInteger words = new AtomicInteger();
        long began = System.nanoTime();
        List<Thread> threads = new ArrayList<>();
        for (StoredRequest request : requests) {
            Thread thread = new Thread(() -> {
                while (System.nanoTime() - began < SLICE) {
                    request.supply("s");
                    words.incrementAndGet();
                }
            });
            thread.start();
            threads.add(thread);
        }
        for (Thread thread : threads) {
            thread.join();
        }
        add(3, words.get(), began);
        requests.forEach(StoredRequest::end);
    }

    private void add(int way, long words, long began) {
        told[way][0] += words;
        told[way][1] += System.nanoTime() - began;
    }

    private double rate(int way) {
        return told[way][0] * 1e9 / told[way][1];
    }

    /** Measures and prints. What the first third of the time shows isn't counted: Java compiles then. */
    public static void main(String[] args) throws Exception {
        Speed speed = new Speed(args[0]);
        long seconds = args.length > 1 ? Long.parseLong(args[1]) : 6, began = System.nanoTime();
        for (boolean isWarm = false; System.nanoTime() - began < seconds * 1_000_000_000L;) {
            speed.slice();
            if (!isWarm && System.nanoTime() - began > seconds * 333_000_000L) {
                isWarm = true;
                for (long[] way : speed.told) {
                    way[0] = way[1] = 0;
                }
            }
        }
        System.out.printf("bare: %.0f words/s%n", speed.rate(0));
        System.out.printf("one word a put: %.0f words/s, %.2f of bare%n", speed.rate(1), speed.rate(1) / speed.rate(0));
        System.out.printf("finish and next claim: %.0f words/s, %.2f of bare%n", speed.rate(2), speed.rate(2) / speed.rate(0));
        System.out.printf("one word a put by %d threads: %.0f words/s, %.2f of bare%n", THREADS, speed.rate(3), speed.rate(3) / speed.rate(0));
        System.exit(0);
    }
}
