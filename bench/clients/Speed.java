package cf.service;

import java.lang.management.ManagementFactory;
import java.util.Arrays;
import java.util.concurrent.CompletableFuture;
import java.util.concurrent.Executor;
import java.util.concurrent.ExecutorService;
import java.util.concurrent.Executors;
import java.util.concurrent.TimeUnit;
import java.util.function.Function;

/**
 * How long what services do takes with cf.service, beside the JDK's class and in turns with it within one run: the best and the median of
 * rounds after a warm-up, in ns, and the bytes of heap that the calling thread takes. bench/clients/java-service runs it.
 */
public final class Speed {
    private static final int N = 16;
    private static final Function<Integer, Integer> NEXT = x -> x + 1;
    private static final ExecutorService POOL = Executors.newFixedThreadPool(2, run -> {
        Thread thread = new Thread(run);
        thread.setDaemon(true);
        return thread;
    });
    private static final Executor HERE = Runnable::run;
    private static final Service SERVICE = new Service(POOL);
    private static final Service HERE_SERVICE = new Service(HERE);
    private static final com.sun.management.ThreadMXBean THREADS = (com.sun.management.ThreadMXBean) ManagementFactory.getThreadMXBean();
    private static final Flow CHAIN = new Flow("chain"), FAN = new Flow("fan");
    private static final Flow.Step<Integer> CHAIN_END = chainFlow();
    private static final Flow.Step<Void> FAN_END = fanFlow();

    /** The status where no row has a name in which the part is. */
    private static final int NO_ROW = 3;

    private static int sink, rows;

    private Speed() {}

    public static void main(String[] args) {
        int rounds = Integer.getInteger("speed.rounds", 15);
        String only = args.length > 0 ? args[0] : "";
        run(only, rounds, "chain of 16", Speed::chainJdk, Speed::chain, Speed::chainOpen, Speed::chainFlowed);
        run(only, rounds, "fan-out of 16, allOf", Speed::fanJdk, Speed::fan, Speed::fanOpen, Speed::fanFlowed);
        run(only, rounds, "anyOf of 4, timeouts", Speed::anyJdk, Speed::any);
        run(only, rounds, "one call here", Speed::hereJdk, Speed::here);
        run(only, rounds, "one call by a pool", Speed::poolJdk, Speed::pool);
        run(only, rounds, "16 Async by a pool", Speed::asyncJdk, Speed::async);
        System.exit(rows > 0 ? 0 : NO_ROW);
    }

    /** Of what one thread does alone, its own time counts, so that others on the machine don't; else the time by the wall. */
    private static long now(boolean alone) {
        return alone ? THREADS.getCurrentThreadCpuTime() : System.nanoTime();
    }

    private static void run(String only, int rounds, String name, Runnable... ways) {
        if (!name.contains(only)) {
            return;
        }
        if (rows++ == 0) {
            System.out.printf("%-36s %9s %9s %8s%n", "ns", "best", "median", "bytes");
        }
        boolean alone = !name.contains("pool") && !name.contains("timeouts");
        int[] each = new int[ways.length];
        for (int w = 0; w < ways.length; w++) {
            long end = now(alone) + Long.getLong("speed.warm", 3000) * 1_000_000L;
            int count = 0;
            while (now(alone) < end) {
                ways[w].run();
                count++;
            }
            each[w] = Math.max(1, count / 20);
        }
        double[][] took = new double[ways.length][rounds];
        for (int k = 0; k < rounds; k++) {
            for (int w = 0; w < ways.length; w++) {
                long began = now(alone);
                for (int j = 0; j < each[w]; j++) {
                    ways[w].run();
                }
                took[w][k] = (double) (now(alone) - began) / each[w];
            }
        }
        String[] labels = {", JDK", ", stages", ", stages, not closed", ", flow"};
        for (int w = 0; w < ways.length; w++) {
            Arrays.sort(took[w]);
            System.out.printf("%-36s %9.0f %9.0f %8d   %4.1f %4.1f %4.1f%n", name + labels[w], took[w][0], took[w][rounds / 2], bytes(ways[w]),
                    took[w][0] / took[0][0], took[w][rounds / 2] / took[0][rounds / 2], (double) bytes(ways[w]) / bytes(ways[0]));
        }
    }

    private static long bytes(Runnable one) {
        long before = THREADS.getCurrentThreadAllocatedBytes();
        for (int j = 0; j < 2000; j++) {
            one.run();
        }
        return (THREADS.getCurrentThreadAllocatedBytes() - before) / 2000;
    }

    private static void chainJdk() {
        CompletableFuture<Integer> first = new CompletableFuture<>(), last = first;
        for (int k = 0; k < N; k++) {
            last = last.thenApply(NEXT);
        }
        first.complete(1);
        sink += last.join();
    }

    private static void chain() {
        try (Request request = SERVICE.request("chain")) {
            chain(request);
        }
    }

    private static void chainOpen() {
        chain(SERVICE.request("chain"));
    }

    private static void chain(Request request) {
        CompletableFuture<Integer> first = request.promise(), last = first;
        for (int k = 0; k < N; k++) {
            last = last.thenApply(NEXT);
        }
        first.complete(1);
        sink += last.join();
    }

    private static Flow.Step<Integer> chainFlow() {
        Flow.Step<Integer> last = CHAIN.promise();
        for (int k = 0; k < N; k++) {
            last = last.thenApply(NEXT);
        }
        return last;
    }

    private static void chainFlowed() {
        try (Request request = SERVICE.start(CHAIN, 1)) {
            sink += request.stage(CHAIN_END).join();
        }
    }

    private static void fanJdk() {
        CompletableFuture<Integer> first = new CompletableFuture<>();
        CompletableFuture<?>[] all = new CompletableFuture<?>[N];
        for (int k = 0; k < N; k++) {
            all[k] = first.thenApply(NEXT);
        }
        CompletableFuture<Void> last = CompletableFuture.allOf(all);
        first.complete(1);
        last.join();
    }

    private static void fan() {
        try (Request request = SERVICE.request("fan")) {
            fan(request);
        }
    }

    private static void fanOpen() {
        fan(SERVICE.request("fan"));
    }

    private static void fan(Request request) {
        CompletableFuture<Integer> first = request.promise();
        CompletableFuture<?>[] all = new CompletableFuture<?>[N];
        for (int k = 0; k < N; k++) {
            all[k] = first.thenApply(NEXT);
        }
        CompletableFuture<Void> last = request.allOf(all);
        first.complete(1);
        last.join();
    }

    private static Flow.Step<Void> fanFlow() {
        Flow.Step<Integer> first = FAN.promise();
        Flow.Step<?>[] all = new Flow.Step<?>[N];
        for (int k = 0; k < N; k++) {
            all[k] = first.thenApply(NEXT);
        }
        return FAN.allOf(all);
    }

    private static void fanFlowed() {
        try (Request request = SERVICE.start(FAN, 1)) {
            request.stage(FAN_END).join();
        }
    }

    private static void anyJdk() {
        CompletableFuture<?>[] all = new CompletableFuture<?>[4];
        for (int k = 0; k < 4; k++) {
            all[k] = new CompletableFuture<Integer>().orTimeout(10, TimeUnit.SECONDS);
        }
        CompletableFuture<Object> last = CompletableFuture.anyOf(all);
        for (CompletableFuture<?> each : all) {
            each.complete(null);
        }
        last.join();
    }

    private static void any() {
        try (Request request = SERVICE.request("any")) {
            CompletableFuture<?>[] all = new CompletableFuture<?>[4];
            for (int k = 0; k < 4; k++) {
                all[k] = request.<Integer>promise().orTimeout(10, TimeUnit.SECONDS);
            }
            CompletableFuture<Object> last = request.anyOf(all);
            for (CompletableFuture<?> each : all) {
                each.complete(null);
            }
            last.join();
        }
    }

    private static void hereJdk() {
        sink += CompletableFuture.supplyAsync(() -> 1, HERE).join();
    }

    private static void here() {
        sink += HERE_SERVICE.supplyAsync(() -> 1).join();
    }

    private static void poolJdk() {
        sink += CompletableFuture.supplyAsync(() -> 1, POOL).join();
    }

    private static void pool() {
        sink += SERVICE.supplyAsync(() -> 1).join();
    }

    private static void asyncJdk() {
        CompletableFuture<Integer> first = new CompletableFuture<>(), last = first;
        for (int k = 0; k < N; k++) {
            last = last.thenApplyAsync(NEXT, POOL);
        }
        first.complete(1);
        sink += last.join();
    }

    private static void async() {
        try (Request request = SERVICE.request("chain")) {
            CompletableFuture<Integer> first = request.promise(), last = first;
            for (int k = 0; k < N; k++) {
                last = last.thenApplyAsync(NEXT, POOL);
            }
            first.complete(1);
            sink += last.join();
        }
    }
}
