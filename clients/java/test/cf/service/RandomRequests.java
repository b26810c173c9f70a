package cf.service;

import java.io.BufferedWriter;
import java.io.OutputStreamWriter;
import java.io.PrintWriter;
import java.nio.charset.StandardCharsets;
import java.util.ArrayList;
import java.util.Collections;
import java.util.List;
import java.util.Random;
import java.util.concurrent.CancellationException;
import java.util.concurrent.CompletableFuture;
import java.util.concurrent.CompletionException;
import java.util.concurrent.CountDownLatch;
import java.util.concurrent.ExecutorService;
import java.util.concurrent.Executors;
import java.util.concurrent.TimeUnit;
import java.util.concurrent.TimeoutException;
import java.util.function.Function;

/**
 * Random requests that eight threads race on: attaching stages of all forms, also behind stages of another request, which may
 * time out, and behind other futures, settling, cancelling, timing out, asking and waiting. Half of them are of a flow. A line is
 * written for the request and one for the other: account, script, report. What an account can't tell is checked here: that it has
 * what callers were told, that a stage once seen settled stays so, that all are settled at the end, and that each shows what its history
 * says it holds.
 *
 * <p>{@code -Dcf.witness=true RandomRequests FIRST COUNT}
 */
public final class RandomRequests {
    private static final int THREADS = 8, STEPS = 12;
    private static final ExecutorService POOL = Executors.newFixedThreadPool(4, run -> {
        Thread thread = new Thread(run);
        thread.setDaemon(true);
        return thread;
    });
    private static final ExecutorService RACERS = Executors.newFixedThreadPool(THREADS, run -> {
        Thread thread = new Thread(run);
        thread.setDaemon(true);
        return thread;
    });

    private final Service service = new Service(POOL);
    private final List<Stage<Object>> made = Collections.synchronizedList(new ArrayList<>());
    private final Request other = service.request("other");
    private final Stage<Object> outside = other.promise(), behindOutside = outside.thenApply(x -> x);
    private final CompletableFuture<Object> foreign = new CompletableFuture<>();
    private final Request request;
    private final long seed;

    private RandomRequests(long seed) {
        this.seed = seed;
        Random random = new Random(seed);
        if (random.nextBoolean()) {
            List<Flow.Step<Object>> steps = new ArrayList<>();
            Flow flow = flow(random, steps);
            request = service.start(flow, random.nextBoolean() ? new Object[0] : new Object[] {value(random)});
            for (Flow.Step<Object> step : steps) {
                made.add(request.stage(step));
            }
        } else {
            request = service.request("raced " + seed);
            made.add(request.promise());
        }
    }

    public static void main(String[] args) throws Exception {
        PrintWriter out = new PrintWriter(new BufferedWriter(new OutputStreamWriter(System.out, StandardCharsets.UTF_8)));
        Checks.is(Machine.WITNESSED, true);
        long first = Long.parseLong(args[0]);
        for (long seed = first; seed < first + Integer.parseInt(args[1]); seed++) {
            try {
                new RandomRequests(seed).run(out);
            } catch (Throwable thrown) {
                thrown.printStackTrace();
                System.err.println("seed " + seed);
                out.flush();
                System.exit(1);
            }
        }
        out.flush();
        System.exit(0);
    }

    private void run(PrintWriter out) throws InterruptedException {
        CountDownLatch done = new CountDownLatch(THREADS);
        List<Throwable> wrong = Collections.synchronizedList(new ArrayList<>());
        for (int t = 0; t < THREADS; t++) {
            Random random = new Random(31 * seed + t);
            RACERS.execute(() -> {
                try {
                    for (int k = 0; k < STEPS; k++) {
                        step(random);
                    }
                } catch (Throwable thrown) {
                    wrong.add(thrown);
                } finally {
                    done.countDown();
                }
            });
        }
        done.await();
        tell(request.history(), out);
        if (!wrong.isEmpty()) {
            throw new AssertionError(wrong.get(0));
        }
        if (seed % 4 == 0) {
            Checks.timeOut(outside);
        }
        outside.complete("outside");
        foreign.complete("foreign");
        settle();
        shown(Checks.ends(request.history()));
        tell(request.history(), out);
        tell(other.history(), out);
        if (seed % 3 == 0) {
            request.close();
            List<Stage<Object>> all = new ArrayList<>(made);
            all.get(0).handle((value, error) -> value).join();
            tell(request.history(), out);
        }
    }

    /** Each stage hangs on what is settled now, or is settled here. */
    private void settle() {
        for (Stage<Object> stage : new ArrayList<>(made)) {
            stage.complete("end");
        }
        for (Stage<Object> stage : new ArrayList<>(made)) {
            stage.handle((value, error) -> null).orTimeout(20, TimeUnit.SECONDS).join();
        }
    }

    private void shown(String[] ends) {
        for (Stage<Object> stage : new ArrayList<>(made)) {
            if (stage.request() != request) {
                continue;
            }
            String end = ends[stage.number()];
            String wanted = stage.isCancelled() ? "fault cancelled raw" : stage.isCompletedExceptionally() ? "fault"
                    : stage.getNow(null) == null ? "value nil" : "value ";
            if (!end.startsWith(wanted) || wanted.equals("value ") && end.equals("value nil")
                    || end.startsWith("fault timeout") != isTimedOut(stage)) {
                throw new AssertionError(stage + " of which the history says " + end);
            }
        }
    }

    private static boolean isTimedOut(Stage<Object> stage) {
        try {
            stage.join();
            return false;
        } catch (CompletionException error) {
            return error.getCause() instanceof TimeoutException;
        } catch (CancellationException cancelled) {
            return false;
        }
    }

    private static void tell(History history, PrintWriter out) {
        Replies.compare(history);
        out.println(history.account() + "\t" + history.script() + "\t" + history.report().replace('\n', '|'));
    }

    private static Object value(Random random) {
        int number = random.nextInt(9);
        return number == 0 ? null : "v" + number;
    }

    private Flow flow(Random random, List<Flow.Step<Object>> steps) {
        Flow flow = new Flow("flow " + seed);
        steps.add(flow.promise());
        for (int k = 0, count = random.nextInt(10); k < count; k++) {
            Flow.Step<Object> one = steps.get(random.nextInt(steps.size())), two = steps.get(random.nextInt(steps.size()));
            Flow.Step<Object> more;
            switch (random.nextInt(13)) {
                case 0: more = flow.promise(); break;
                case 1: more = flow.supplyAsync(() -> give(random)); break;
                case 2: more = one.thenApply(x -> give(random)); break;
                case 3: more = one.handle((x, e) -> give(random)); break;
                case 4: more = one.exceptionally(e -> give(random)); break;
                case 5: more = one.thenCombine(two, (x, y) -> give(random)); break;
                case 6: more = one.applyToEither(two, x -> give(random)); break;
                case 7: more = one.whenComplete((x, e) -> give(random)); break;
                case 8: more = cast(flow.allOf(one, two, one)); break;
                case 9: more = cast(flow.anyOf(two, one)); break;
                case 10: more = one.thenCompose(x -> outside); break;
                case 11: more = one.<Object>thenApply(x -> give(random)).async(); break;
                default: more = cast(flow.allOf()); break;
            }
            steps.add(more);
        }
        return flow;
    }

    private void step(Random random) throws InterruptedException {
        Stage<Object> one = any(random), two = any(random);
        boolean async = random.nextBoolean();
        Function<Object, Object> fn = x -> give(random);
        switch (random.nextInt(29)) {
            case 0: made.add(request.promise()); break;
            case 1: made.add(request.supplyAsync(() -> give(random))); break;
            case 2: made.add(async ? one.thenApplyAsync(fn) : one.thenApply(fn)); break;
            case 3: made.add(async ? one.thenCombineAsync(two, (x, y) -> give(random)) : one.thenCombine(two, (x, y) -> give(random))); break;
            case 4: made.add(async ? one.applyToEitherAsync(two, fn) : one.applyToEither(two, fn)); break;
            case 5: made.add(async ? one.handleAsync((x, e) -> give(random)) : one.handle((x, e) -> give(random))); break;
            case 6: made.add(one.whenComplete((x, e) -> give(random))); break;
            case 7: made.add(async ? one.exceptionallyAsync(e -> give(random)) : one.exceptionally(e -> give(random))); break;
            case 8: made.add(one.thenCompose(x -> two)); break;
            case 9: made.add(one.thenCompose(x -> request.supplyAsync(() -> give(random)))); break;
            case 10: made.add(one.exceptionallyCompose(x -> async ? outside : two)); break;
            case 11: made.add(cast(request.anyOf(one, two, any(random)))); break;
            case 12: made.add(cast(request.allOf(one, two, any(random)))); break;
            case 13: made.add(one.thenCombine(foreign, (x, y) -> x)); break;
            case 14: made.add(one.applyToEither(outside, x -> x)); break;
            case 15: one.complete(value(random)); break;
            case 16: one.completeExceptionally(new IllegalStateException("e" + random.nextInt(9))); break;
            case 17: one.cancel(true); break;
            case 18: made.add(one.copy().orTimeout(random.nextInt(3), TimeUnit.MILLISECONDS)); break;
            case 19: made.add(one.copy().completeOnTimeout("late", random.nextInt(3), TimeUnit.MILLISECONDS)); break;
            case 20: made.add(one.thenCompose(x -> foreign)); break;
            case 21: made.add(cast(one.thenAccept(x -> give(random)).thenRun(() -> give(random)))); break;
            case 22: stays(one); break;
            case 23: Checks.timeOut(one); break;
            case 24: made.add(async ? one.thenCompose(x -> behindOutside) : one.applyToEither(behindOutside, x -> x)); break;
            case 25: made.add(request.first(one, two, async ? outside : any(random))); break;
            case 26: made.add(cast(request.all(one, two, async ? foreign : any(random)))); break;
            case 27: made.add(cast(request.quorum(1 + random.nextInt(3), one, two, any(random)))); break;
            default: waits(one, random.nextInt(2));
        }
    }

    private static void stays(Stage<Object> stage) {
        Object first = stage.outcome;
        if (first != null && (stage.outcome != first || !stage.isDone())) {
            throw new AssertionError("an outcome changed");
        }
    }

    private static void waits(Stage<Object> stage, int millis) throws InterruptedException {
        try {
            stage.get(millis, TimeUnit.MILLISECONDS);
        } catch (InterruptedException interrupted) {
            throw interrupted;
        } catch (Exception told) {
            // It isn't settled by then, or has a fault.
        }
    }

    private static Object give(Random random) {
        int number;
        synchronized (random) {
            number = random.nextInt(6);
        }
        if (number == 0) {
            throw new IllegalArgumentException("thrown");
        }
        return number == 1 ? null : "given " + number;
    }

    @SuppressWarnings("unchecked")
    private static Stage<Object> cast(Stage<?> stage) {
        return (Stage<Object>) stage;
    }

    @SuppressWarnings("unchecked")
    private static Flow.Step<Object> cast(Flow.Step<?> step) {
        return (Flow.Step<Object>) step;
    }

    private Stage<Object> any(Random random) {
        synchronized (made) {
            return made.get(random.nextInt(made.size()));
        }
    }
}
