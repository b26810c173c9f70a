import java.util.ArrayList;
import java.util.Arrays;
import java.util.List;
import java.util.concurrent.CompletableFuture;
import java.util.concurrent.CompletionException;
import java.util.concurrent.atomic.AtomicInteger;

/**
 * Builds and settles the shapes of crates/cf_bench with java.util.concurrent.CompletableFuture, then lets 1, 2 and 4
 * threads complete the same 4,095 futures, and builds and settles a chain of 16. It prints the best and the median of
 * many rounds in picoseconds, in lines as those of crates/cf_bench.
 */
public final class Shapes {
    private static final int[] SIZES = {64, 512, 4095};
    private static final int STAGES_A_SHAPE = 4_095_000;
    private static final int RACES = 1_000;
    private static final int RACED = 4095;
    private static final int SMALL = 16;
    private static final int SMALL_ROUNDS = 200_000;

    /** A graph that was built: its sources, and all of its stages. */
    private record Built(List<CompletableFuture<Integer>> sources, List<CompletableFuture<?>> stages) {}

    private static Built chain(int stages) {
        List<CompletableFuture<?>> all = new ArrayList<>(stages);
        CompletableFuture<Integer> source = new CompletableFuture<>();
        all.add(source);
        CompletableFuture<Integer> last = source;
        for (int i = 1; i < stages; i++) {
            last = last.thenApply(x -> x + 1);
            all.add(last);
        }
        return new Built(List.of(source), all);
    }

    private static Built fanOut(int stages) {
        List<CompletableFuture<?>> all = new ArrayList<>(stages);
        CompletableFuture<Integer> source = new CompletableFuture<>();
        all.add(source);
        for (int i = 1; i < stages; i++) {
            all.add(source.thenApply(x -> x + 1));
        }
        return new Built(List.of(source), all);
    }

    private static Built combineTree(int stages) {
        int leaves = Math.min(stages / 2 + 1, stages);
        List<CompletableFuture<Integer>> nodes = new ArrayList<>(stages);
        for (int i = 0; i < leaves; i++) {
            nodes.add(new CompletableFuture<>());
        }
        for (int i = leaves; i < stages; i++) {
            int left = 2 * (i - leaves);
            nodes.add(nodes.get(left).thenCombine(nodes.get(left + 1), (a, b) -> a + b + 1));
        }
        return new Built(new ArrayList<>(nodes.subList(0, leaves)), new ArrayList<>(nodes));
    }

    private static Built allOf(int stages) {
        List<CompletableFuture<Integer>> sources = new ArrayList<>(stages);
        for (int i = 0; i < stages - 1; i++) {
            sources.add(new CompletableFuture<>());
        }
        List<CompletableFuture<?>> all = new ArrayList<>(sources);
        all.add(CompletableFuture.allOf(sources.toArray(new CompletableFuture<?>[0])));
        return new Built(sources, all);
    }

    private static Built build(String shape, int stages) {
        return switch (shape) {
            case "chain", "failed chain" -> chain(stages);
            case "fan-out" -> fanOut(stages);
            case "combine tree" -> combineTree(stages);
            default -> allOf(stages);
        };
    }

    private static void settle(String shape, Built built) {
        boolean fails = shape.equals("failed chain");
        for (int i = 0; i < built.sources.size(); i++) {
            if (fails) {
                built.sources.get(i).completeExceptionally(new CompletionException(null));
            } else {
                built.sources.get(i).complete(i);
            }
        }
    }

    private static int settledCount(Built built) {
        int count = 0;
        for (CompletableFuture<?> stage : built.stages) {
            if (stage.isDone()) {
                count++;
            }
        }
        return count;
    }

    /** Prints the best and the median of some rounds, each of which did so many parts of work. */
    private static void show(String name, long[] nanos, int parts) {
        Arrays.sort(nanos);
        System.out.printf("%s: best %d ps, median %d ps, %d rounds%n",
            name, nanos[0] * 1000 / parts, nanos[nanos.length / 2] * 1000 / parts, nanos.length);
    }

    /** A gate that opens as the last of its threads comes, and notes when it opened and when the last had ended. */
    private static final class Gate {
        private final int threads;
        private final AtomicInteger came = new AtomicInteger();
        private final AtomicInteger went = new AtomicInteger();
        private volatile boolean open;
        private volatile long opened;
        private volatile long ended;

        Gate(int threads) {
            this.threads = threads;
        }

        void pass() {
            if (came.incrementAndGet() == threads) {
                opened = System.nanoTime();
                open = true;
            }
            while (!open) {
                Thread.onSpinWait();
            }
        }

        void leave() {
            if (went.incrementAndGet() == threads) {
                ended = System.nanoTime();
            }
        }

        long took() {
            return ended - opened;
        }
    }

    /**
     * The nanoseconds in which so many threads complete the same futures, each all of them, from when all are there to
     * the end of the last.
     */
    private static long race(int threads, int stages) throws InterruptedException {
        List<CompletableFuture<Integer>> futures = new ArrayList<>(stages);
        for (int i = 0; i < stages; i++) {
            futures.add(new CompletableFuture<>());
        }
        Gate gate = new Gate(threads);
        List<Thread> racing = new ArrayList<>(threads);
        for (int k = 0; k < threads; k++) {
            racing.add(new Thread(() -> {
                gate.pass();
                for (int i = 0; i < stages; i++) {
                    futures.get(i).complete(i);
                }
                gate.leave();
            }));
        }
        for (Thread thread : racing) {
            thread.start();
        }
        for (Thread thread : racing) {
            thread.join();
        }
        return gate.took();
    }

    private static void showRaces() throws InterruptedException {
        for (int threads : new int[] {1, 2, 4}) {
            long[] racing = new long[RACES];
            for (int round = 0; round < RACES; round++) {
                racing[round] = race(threads, RACED);
            }
            show("race " + threads, racing, RACED);
        }
    }

    /** Shows the rounds in which a shape is built and settled, and answers how many stages were settled. */
    private static int showShape(String name, String shape, int stages, int rounds, int parts) {
        int settled = 0;
        long[] took = new long[rounds];
        for (int round = 0; round < rounds; round++) {
            long start = System.nanoTime();
            Built built = build(shape, stages);
            settle(shape, built);
            took[round] = System.nanoTime() - start;
            settled += settledCount(built);
        }
        show(name, took, parts);
        return settled;
    }

    public static void main(String[] words) throws InterruptedException {
        int settled = 0;
        for (String shape : new String[] {"chain", "failed chain", "fan-out", "combine tree", "allOf"}) {
            for (int stages : SIZES) {
                settled += showShape("from scratch " + shape + " " + stages, shape, stages, STAGES_A_SHAPE / stages, stages);
            }
        }
        showRaces();
        settled += showShape("desk", "chain", SMALL, SMALL_ROUNDS, 1);
        if (settled == 0) {
            System.out.println("nothing settled");
        }
    }
}
