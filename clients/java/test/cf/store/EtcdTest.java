package cf.store;

import static cf.service.Checks.is;
import static cf.service.Checks.thrown;

import cf.internal.Host;
import cf.service.Checks;
import java.io.BufferedReader;
import java.io.File;
import java.io.IOException;
import java.io.InputStream;
import java.io.InputStreamReader;
import java.io.OutputStream;
import java.net.BindException;
import java.net.InetAddress;
import java.net.ServerSocket;
import java.net.Socket;
import java.nio.charset.StandardCharsets;
import java.nio.file.Files;
import java.nio.file.Path;
import java.util.ArrayList;
import java.util.Arrays;
import java.util.Collections;
import java.util.Comparator;
import java.util.List;
import java.util.Map;
import java.util.concurrent.ThreadLocalRandom;
import java.util.concurrent.TimeUnit;
import java.util.concurrent.atomic.AtomicInteger;

/** Requests in a member of etcd that each test starts; and processes in Python that work on them. */
public final class EtcdTest {
    private static final String PYTHON = String.join("\n",
            "import sys",
            "from cf.service import Flow",
            "from cf.store import DurableService, Functions, Worker, connect",
            "functions = Functions()",
            "@functions.function('inc')",
            "def inc(number): return number + 1",
            "@functions.function('two of', version=2)",
            "def two(value, error): return [value, str(error)]",
            "store = connect(sys.argv[2])",
            "if sys.argv[1] == 'works':",
            "    Worker(store, functions, 2, lease=60).run()",
            "    sys.exit()",
            "flow = Flow('sum')",
            "number = flow.promise('number')",
            "last = number.then(inc).then(inc)",
            "with DurableService(store, 0, functions=functions, lease=60) as service:",
            "    request = service.start(flow, 40, name='caf\\u00e9/*+~ of python')",
            "    print(request[last].or_timeout(60).result(), flush=True)",
            "    request.promise('thanks').complete({'from': 'python'})");

    private EtcdTest() {}

    public static boolean hasServer() {
        return StoresTest.onPath("etcd");
    }

    public static boolean hasPython() {
        return StoresTest.onPath("python3") && System.getenv("CF_LIBRARY") != null && new File("clients/python/cf/store").isDirectory();
    }

    /** A cluster of one member. */
    public static final class Server implements StoresTest.Place {
        final int port = freePort();
        private final Path folder = Files.createTempDirectory("cf-etcd");
        private Process member;

        public Server() throws IOException {
            start();
        }

        /** The kernel gives no port below 32,768 to who connects, so one that is free stays so. */
        private static int freePort() throws IOException {
            while (true) {
                try (ServerSocket any = new ServerSocket(ThreadLocalRandom.current().nextInt(10_000, 32_768), 1, InetAddress.getLoopbackAddress())) {
                    return any.getLocalPort();
                } catch (BindException taken) {
                    // Another one is tried.
                }
            }
        }

        void start() throws IOException {
            String client = "http://127.0.0.1:" + port, peer = "http://127.0.0.1:" + freePort();
            member = new ProcessBuilder("etcd", "--name", "one", "--data-dir", folder + "/data", "--listen-client-urls", client,
                    "--advertise-client-urls", client, "--listen-peer-urls", peer, "--initial-advertise-peer-urls", peer, "--initial-cluster",
                    "one=" + peer, "--heartbeat-interval", "50", "--election-timeout", "500").redirectErrorStream(true)
                    .redirectOutput(folder.resolve("log").toFile()).start();
        }

        void kill() throws InterruptedException {
            member.destroyForcibly().waitFor();
        }

        @Override
        public Store open() {
            return RowView.retryingForAMinute(new Host(), () -> EtcdStore.open("127.0.0.1:" + port));
        }

        @Override
        public void close() throws Exception {
            kill();
            List<Path> paths = new ArrayList<>();
            Files.walk(folder).forEach(paths::add);
            paths.sort(Comparator.reverseOrder());
            for (Path path : paths) {
                Files.delete(path);
            }
        }
    }

    /** Passes all on to a member, and cuts each so-manieth of its answers, or all connections; 0 is for none, and 1 for all. */
    private static final class Proxy implements AutoCloseable {
        final ServerSocket listens = new ServerSocket(0, 50, InetAddress.getLoopbackAddress());
        final AtomicInteger answers = new AtomicInteger(), cuts = new AtomicInteger();
        volatile int each;
        private final int to;

        Proxy(int to) throws IOException {
            this.to = to;
            goOn(() -> {
                while (true) {
                    Socket here = listens.accept();
                    goOn(() -> connect(here));
                }
            });
        }

        private static void goOn(Checks.Test run) {
            Thread thread = new Thread(() -> {
                try {
                    run.run();
                } catch (Exception ended) {
                    // A connection was closed.
                }
            });
            thread.setDaemon(true);
            thread.start();
        }

        private void connect(Socket here) throws IOException {
            try (Socket near = here; Socket far = new Socket(InetAddress.getLoopbackAddress(), to)) {
                goOn(() -> {
                    pass(near, far, false);
                    far.shutdownOutput();
                });
                pass(far, near, true);
            }
        }

        private void pass(Socket from, Socket into, boolean isAnswer) throws IOException {
            InputStream in = from.getInputStream();
            OutputStream out = into.getOutputStream();
            byte[] some = new byte[65536];
            for (int many = in.read(some); many >= 0; many = in.read(some)) {
                int by = each;
                if (isAnswer && by > 0 && answers.incrementAndGet() % by == 0) {
                    cuts.incrementAndGet();
                    return;
                }
                out.write(some, 0, many);
            }
        }

        Store open() {
            return EtcdStore.open("127.0.0.1:" + listens.getLocalPort());
        }

        @Override
        public void close() throws IOException {
            listens.close();
        }
    }

    private static Store.Put put(Store.Opened opened, int at, int payload, long... numbers) {
        List<Store.Entry> entries = new ArrayList<>();
        for (int k = 0; k < numbers.length; k += 2) {
            entries.add(new Store.Entry(numbers[k], numbers[k + 1]));
        }
        Map<Integer, byte[]> payloads = payload < 0 ? Collections.emptyMap() : Collections.singletonMap(at + 1, new byte[payload]);
        return new Store.Put(opened.name, opened.number, at, entries, payloads, false);
    }

    private static String told(List<Store.Entry> entries) {
        StringBuilder told = new StringBuilder();
        entries.forEach(it -> told.append(it.word).append(' ').append(it.token).append(' '));
        return told.toString();
    }

    public static void words(Server server) throws Exception {
        try (Store store = server.open(); Store other = server.open()) {
            Store.Opened opened = store.open("a/b +*~\u00e9", "{\"plan\":1}"), again = other.open("a/b +*~\u00e9", "{\"plan\":2}");
            is(again.plan, "{\"plan\":1}");
            is(new String(EtcdStore.key('r', opened.name), StandardCharsets.UTF_8), "cf/r/a%2Fb%20%2B%2A~%C3%A9"); // (as Python's is)
            is(again.number, opened.number);
            is(store.append(put(opened, 0, 3, 5, 6, 7, 8)), null);
            is(told(other.append(put(again, 0, -1, 9, 9))), "5 6 7 8 "); // (the place is taken)
            is(told(store.append(put(opened, 0, 3, 5, 6, 7, 8))), "5 6 7 8 "); // (the same put once more)
            is(told(other.append(put(again, 1, -1, 9, 9))), "7 8 ");
            is(told(other.read(again.name, again.number, 0)), "5 6 7 8 ");
            is(told(other.read(again.name, again.number, 2)), "");
            is(other.payload(again.name, again.number, 1).length, 3);
            is(other.payload(again.name, again.number, 2), null);
            is(store.news(null).ends, Collections.singletonMap("a/b +*~\u00e9", 2));
            is(store.append(put(opened, 3, 0, 1, 1)), null); // (who leaves a gap)
            is(store.payload(opened.name, opened.number, 4).length, 0);
            String gap = thrown(StoreException.Broken.class, () -> other.read(again.name, again.number, 0)).getMessage();
            is(gap, "request \"a/b +*~\u00e9\", place 3: no word stands there, and one stands at 4");
            Store.Opened minus = store.open("minus", "{}");
            is(store.append(put(minus, 0, -1, -1, 1)), null);
            thrown(StoreException.Broken.class, () -> store.read("minus", minus.number, 0));
            // A number is of one request alone, and what is too large is refused, and isn't asked again.
            Store.Opened gone = new Store.Opened("minus", "{}", minus.number - 1);
            thrown(StoreException.Gone.class, () -> store.append(put(gone, 1, -1, 1, 1)));
            thrown(StoreException.Gone.class, () -> store.read("minus", gone.number, 0));
            thrown(StoreException.Gone.class, () -> store.payload("minus", gone.number, 1));
            thrown(StoreException.Gone.class, () -> store.end("minus", gone.number, 1));
            thrown(StoreException.Gone.class, () -> store.setTimer(new Store.Timer("minus", gone.number, 0, 1, new byte[1])));
            for (int size : new int[] {2_000_000, 3_000_000}) { // (etcd refuses the one, and gRPC the other before it)
                StoreException refused = thrown(StoreException.class, () -> store.append(put(minus, 1, size, 1, 1)));
                is(refused instanceof StoreException.Unknown, false);
            }
            long[] many = new long[82];
            is(thrown(StoreException.class, () -> store.append(put(minus, 1, -1, many))).getMessage(), "etcd takes 40 words in a put, not 41");
            thrown(IllegalArgumentException.class, () -> store.find("half \ud83d"));
            is(store.find("none"), null);
            is(store.end("minus", minus.number, 0), false);
            is(store.end("minus", minus.number, 1), true);
            is(store.end("minus", minus.number, 1), false);
            is(store.append(put(minus, 1, -1, 2, 2)), null); // (which opens it again)
            is(store.news(null).ends.get("minus"), 2);
            store.beat(77);
            store.beat(77);
            is(other.beats(), Collections.singletonMap(77L, 2L));
            other.dropBeat(77);
            is(store.beats(), Collections.emptyMap());
        }
    }

    public static void changes(Server server) throws Exception {
        try (Store store = server.open(); Store other = server.open()) {
            Store.Opened first = store.open("first", "{}");
            Object mark = store.news(null).mark;
            is(store.news(mark).ends, Collections.emptyMap());
            store.awaitChange(1000); // (it begins to watch)
            StoreFaultsTest.quiet(store, 200);
            Thread puts = new Thread(() -> {
                other.open("second", "{}");
                other.append(put(first, 0, -1, 1, 1));
            });
            puts.start();
            long began = System.nanoTime();
            for (int k = 0; k < 2 && store.news(mark).ends.getOrDefault("first", 0) == 0; k++) {
                store.awaitChange(29_000);
            }
            is(System.nanoTime() - began < 25_000_000_000L, true);
            puts.join();
            Store.News news = store.news(mark);
            is(news.ends.get("first"), 1);
            is(news.ends.get("second"), 0);
            is(store.news(news.mark).ends, Collections.emptyMap());
            other.nameSession(7, "seven");
            java.util.stream.LongStream.range(0, 1005).parallel().forEach(other::beat);
            is(store.beats().size(), 1005); // (more than one answer has)
        }
    }

    public static void cut(Server server) throws Exception {
        server.open().close();
        AtomicInteger calls = new AtomicInteger();
        Functions functions = new Functions().with("inc", 1, number -> {
            calls.incrementAndGet();
            return (Long) number + 1;
        });
        try (Proxy proxy = new Proxy(server.port); Store store = proxy.open()) {
            Store.Opened opened = store.open("once", "{}");
            proxy.each = 1;
            thrown(StoreException.Unknown.class, () -> store.append(put(opened, 0, -1, 5, 6))); // (it lands, and nobody is told)
            proxy.each = 0;
            is(told(store.append(put(opened, 0, -1, 5, 6))), "5 6 ");
            is(proxy.cuts.get(), 1); // (no call is sent again by itself)
            try (StoreService service = StoresTest.service(() -> store, functions)) {
                StoredRequest request = service.request("cut");
                StoredStage last = request.promise("number");
                proxy.each = 4;
                last.complete(0);
                for (int k = 0; k < 20; k++) {
                    last = last.then("inc");
                }
                is(StoresTest.end(last), 20L);
                is(calls.get(), 20); // each function once
                is(proxy.cuts.get() > 5, true);
                proxy.each = 0;
            }
        }
    }

    public static void silent(Server server) throws Exception {
        server.open().close();
        try (Proxy proxy = new Proxy(server.port); Store store = EtcdStore.open("127.0.0.1:1,127.0.0.1:" + proxy.listens.getLocalPort())) {
            Store.Opened opened = store.open("a", "{}"); // (the first member isn't there)
            server.kill();
            thrown(StoreException.Unknown.class, () -> store.find("a"));
            thrown(StoreException.Unknown.class, () -> store.append(put(opened, 0, -1, 1, 1)));
            thrown(StoreException.Unknown.class, proxy::open);
            store.awaitChange(10); // (it says nothing, as long as nobody answers)
            server.start();
            is(RowView.retryingForAMinute(new Host(), () -> store.append(put(opened, 0, -1, 1, 1))), null);
            is(told(store.read("a", opened.number, 0)), "1 1 ");
        }
        for (String address : new String[] {"", "host", "host:port", "a:1,", "etcd://a"}) {
            thrown(IllegalArgumentException.class, () -> EtcdStore.open(address));
        }
    }

    private static Process python(Server server, String word) throws IOException {
        ProcessBuilder python = new ProcessBuilder("python3", "-B", "-c", PYTHON, word, "etcd://127.0.0.1:" + server.port);
        python.environment().put("PYTHONPATH", "clients/python");
        return python.redirectError(ProcessBuilder.Redirect.INHERIT).start();
    }

    /** Each language begins what the other one finishes, a name and a payload of each among it. */
    public static void python(Server server) throws Exception {
        server.open().close();
        Functions functions = new Functions().with("inc", 1, number -> (Long) number + 1).with("two of", 2, (value, thrown) -> value);
        Process begins = python(server, "begins");
        try (StoreService works = StoresTest.service(server, functions, 2, true);
                BufferedReader said = new BufferedReader(new InputStreamReader(begins.getInputStream(), StandardCharsets.UTF_8))) {
            is(said.readLine(), "42");
            is(begins.waitFor(60, TimeUnit.SECONDS), true);
            is(begins.exitValue(), 0);
            StoredRequest request = works.open("caf\u00e9/*+~ of python");
            is(StoresTest.end(request.stage("thanks")), Collections.singletonMap("from", "python"));
        }
        Process worker = python(server, "works");
        try (StoreService plans = StoresTest.service(server, functions, 0, false)) {
            StoredRequest request = plans.request("caf\u00e9/*+~ of java");
            StoredStage number = request.promise("number"), declined = request.promise("declined");
            StoredStage inc = number.then("inc").then("inc"), two = declined.handle("two of"), late = request.promise("late");
            late.orTimeout(100, TimeUnit.MILLISECONDS);
            number.complete(40);
            declined.fail(new RemoteException("ValueError", "caf\u00e9"));
            is(StoresTest.end(inc), 42L);
            is(StoresTest.end(two), Arrays.asList(null, "caf\u00e9"));
            is(((java.util.concurrent.TimeoutException) StoresTest.end(late)).getMessage(), "late took longer than 0.1 s");
        } finally {
            worker.destroy();
            worker.waitFor();
        }
    }
}
