package cf.service;

import static cf.service.Checks.is;
import static cf.service.Checks.SERVICE;
import static cf.service.Checks.thrown;

import java.util.ArrayList;
import java.util.Arrays;
import java.util.Comparator;
import java.util.IdentityHashMap;
import java.util.LinkedHashMap;
import java.util.List;
import java.util.Map;
import java.util.concurrent.CancellationException;
import java.util.concurrent.CompletableFuture;
import java.util.concurrent.CompletionException;
import java.util.concurrent.Future;
import java.util.concurrent.TimeUnit;
import java.util.concurrent.atomic.AtomicBoolean;
import java.util.function.Supplier;

/** Which exception objects stages have, which of them are the same, and what is added to them. */
final class FaultsTest {
    private static final int HOOKS = 500;

    private FaultsTest() {}

    /** It makes futures of such promises, and gives those that are compared, in the order in which they settle. */
    private interface Program {
        List<CompletableFuture<Object>> run(Supplier<CompletableFuture<Object>> promise) throws Exception;
    }

    private static IllegalStateException broken(Object what) {
        return new IllegalStateException("broken " + what);
    }

    private static CompletableFuture<Object> hooked(CompletableFuture<Object> future, String hook) {
        return future.whenComplete((value, error) -> {
            throw broken(hook);
        });
    }

    private static Map<String, Program> programs() {
        Map<String, Program> programs = new LinkedHashMap<>();
        programs.put("siblings, and a hook that throws behind each", promise -> {
            CompletableFuture<Object> source = promise.get(), one = source.thenApply(x -> x), two = source.thenApply(x -> x);
            List<CompletableFuture<Object>> all = Arrays.asList(source, one, two, hooked(one, "one"), hooked(two, "two"), one.thenApply(x -> x));
            source.completeExceptionally(broken("source"));
            return all;
        });
        programs.put("cancelled ones, and what is behind", promise -> {
            CompletableFuture<Object> one = promise.get(), two = promise.get();
            List<CompletableFuture<Object>> all = Arrays.asList(one, two, one.thenApply(x -> x), two.thenApply(x -> x), two.thenApply(x -> x), hooked(one, "one"),
                    hooked(two, "two"), two.thenApply(x -> x).thenApply(x -> x).thenApply(x -> x));
            one.cancel(true);
            two.cancel(true);
            return all;
        });
        programs.put("those that time out, and what is behind", promise -> {
            CompletableFuture<Object> one = promise.get().orTimeout(1, TimeUnit.MILLISECONDS), two = promise.get().orTimeout(2, TimeUnit.MILLISECONDS);
            List<CompletableFuture<Object>> all = Arrays.asList(one, two, one.thenApply(x -> x), two.thenApply(x -> x), hooked(one, "one"));
            all.get(3).handle((value, error) -> 0).get(20, TimeUnit.SECONDS);
            all.get(4).handle((value, error) -> 0).get(20, TimeUnit.SECONDS);
            return all;
        });
        programs.put("a chain that passes one on", promise -> {
            CompletableFuture<Object> source = promise.get(), one = source.thenApply(x -> x), two = one.thenApply(x -> x), three = two.whenComplete((x, e) -> { });
            source.completeExceptionally(broken("source"));
            return Arrays.asList(source, one, two, three, three.copy());
        });
        programs.put("of two cancelled ones", promise -> {
            CompletableFuture<Object> one = promise.get(), two = promise.get(), behind = two.thenApply(x -> x);
            List<CompletableFuture<Object>> all = Arrays.asList(one, two, behind, one.thenCombine(two, (x, y) -> x), two.thenCombine(one, (x, y) -> x),
                    behind.thenCombine(one, (x, y) -> x), one.applyToEither(two, x -> x), two.applyToEither(one, x -> x));
            two.cancel(true);
            one.cancel(true);
            return all;
        });
        programs.put("of two that time out", promise -> {
            CompletableFuture<Object> one = promise.get(), two = promise.get(), behind = two.thenApply(x -> x);
            List<CompletableFuture<Object>> all = Arrays.asList(one, two, behind, one.thenCombine(two, (x, y) -> x), two.thenCombine(one, (x, y) -> x),
                    behind.thenCombine(one, (x, y) -> x), one.applyToEither(two, x -> x), two.applyToEither(one, x -> x), hooked(behind, "behind"),
                    behind.thenApply(x -> x).handle((x, error) -> {
                        Request.<RuntimeException>rethrow(error.getCause());
                        return x;
                    }));
            for (CompletableFuture<Object> each : Arrays.asList(two, one)) {
                each.orTimeout(1, TimeUnit.MILLISECONDS).handle((value, error) -> 0).get(20, TimeUnit.SECONDS);
            }
            for (CompletableFuture<Object> each : all) {
                each.handle((value, error) -> 0).get(20, TimeUnit.SECONDS);
            }
            return all;
        });
        for (boolean wraps : new boolean[] {false, true}) {
            for (boolean isCancelled : new boolean[] {false, true}) {
                for (boolean isBefore : new boolean[] {false, true}) {
                    String name = (isCancelled ? "cancelled" : "failed") + (wraps ? " behind another" : "") + (isBefore ? " before" : "");
                    programs.put("what a function gives that is " + name, promise -> composed(promise, wraps, isCancelled, isBefore));
                }
            }
        }
        programs.put("what a function gives for one that failed", promise -> {
            CompletableFuture<Object> source = promise.get(), given = promise.get(), instead = source.exceptionallyCompose(error -> given);
            source.completeExceptionally(broken("source"));
            given.cancel(true);
            return Arrays.asList(source, given, instead, instead.thenApply(x -> x));
        });
        programs.put("what functions throw", promise -> {
            CompletableFuture<Object> source = promise.get(), one = source.thenApply(x -> Checks.breaks()), two = source.handle((x, e) -> {
                throw new CompletionException(broken("two"));
            });
            RuntimeException same = broken("same");
            List<CompletableFuture<Object>> all = Arrays.asList(one, two, one.thenApply(x -> x), two.thenApply(x -> x), source.thenApply(x -> {
                throw same;
            }), source.thenApply(x -> {
                throw same;
            }), one.handle((x, e) -> {
                throw (CompletionException) e;
            }));
            source.complete(1);
            return all;
        });
        programs.put("hooks that throw what they are told", promise -> {
            CompletableFuture<Object> source = promise.get(), one = source.thenApply(x -> x);
            List<CompletableFuture<Object>> all = new ArrayList<>(Arrays.asList(source, one));
            for (CompletableFuture<Object> each : Arrays.asList(source, one)) {
                all.add(each.whenComplete((value, error) -> {
                    throw (RuntimeException) error;
                }));
                all.add(each.exceptionally(error -> {
                    throw (RuntimeException) error;
                }));
            }
            source.completeExceptionally(broken("source"));
            return all;
        });
        return programs;
    }

    private static List<CompletableFuture<Object>> composed(Supplier<CompletableFuture<Object>> promise, boolean wraps, boolean isCancelled, boolean isBefore) {
        CompletableFuture<Object> first = promise.get(), failed = promise.get(), source = promise.get(), given = wraps ? source.thenApply(x -> x) : source;
        CompletableFuture<Object> one = first.thenCompose(x -> given), two = first.thenCompose(x -> given), three = failed.exceptionallyCompose(x -> given);
        List<CompletableFuture<Object>> all = Arrays.asList(source, given, failed, one, two, three, hooked(one, "one"), one.thenApply(x -> x));
        failed.cancel(true);
        if (!isBefore) {
            first.complete(1);
        }
        if (isCancelled) {
            source.cancel(true);
        } else {
            source.completeExceptionally(broken("source"));
        }
        if (isBefore) {
            first.complete(1);
        }
        return all;
    }

    /** The exceptions of futures with all that hangs on them, each object by a number. */
    private static String objects(List<CompletableFuture<Object>> futures) {
        Map<Throwable, Integer> numbers = new IdentityHashMap<>();
        StringBuilder text = new StringBuilder();
        for (CompletableFuture<Object> each : futures) {
            Throwable[] seen = new Throwable[1];
            each.handle((value, error) -> seen[0] = error).join();
            text.append(object(seen[0], numbers)).append('\n');
        }
        return text.toString();
    }

    private static String object(Throwable error, Map<Throwable, Integer> numbers) {
        if (error == null || numbers.containsKey(error)) {
            return error == null ? "none" : numbers.get(error).toString();
        }
        numbers.put(error, numbers.size());
        Throwable[] suppressed = error.getSuppressed();
        Arrays.sort(suppressed, Comparator.comparing(Throwable::toString));
        StringBuilder text = new StringBuilder(numbers.get(error) + " " + error);
        text.append(error.getCause() == null ? "" : " (" + object(error.getCause(), numbers) + ")");
        for (Throwable each : suppressed) {
            text.append(" + ").append(object(each, numbers));
        }
        return text.toString();
    }

    /** They are the same objects as Java's futures have, of stages of one request, of one each, and of Java's futures beside them. */
    static void besideJavas() throws Exception {
        for (Map.Entry<String, Program> each : programs().entrySet()) {
            String name = each.getKey() + "\n", javas = name + objects(each.getValue().run(CompletableFuture::new));
            Request one = SERVICE.request();
            is(name + objects(each.getValue().run(one::promise)), javas);
            is(name + objects(each.getValue().run(() -> SERVICE.request().promise())), javas);
            AtomicBoolean isOurs = new AtomicBoolean();
            is(name + objects(each.getValue().run(() -> isOurs.getAndSet(!isOurs.get()) ? one.promise() : new CompletableFuture<>())), javas);
        }
    }

    /** A hook that throws is told by its own stage alone. */
    static void hooks() {
        Request request = SERVICE.request();
        Stage<Object> source = request.promise();
        List<Stage<Object>> behind = new ArrayList<>();
        for (int k = 0; k < HOOKS; k++) {
            Stage<Object> part = k % 2 == 0 ? source.thenApply(x -> x) : request.promise();
            behind.add(part);
            int number = k;
            part.whenComplete((value, error) -> {
                throw broken(number);
            });
        }
        source.completeExceptionally(broken("source"));
        behind.forEach(each -> each.cancel(true));
        for (int k = 0; k < HOOKS; k++) {
            Throwable told = thrown(RuntimeException.class, behind.get(k)::join);
            is(told.getSuppressed().length + " " + told.getSuppressed()[0].getMessage(), "1 broken " + k);
        }
    }

    private static void customerLeft(Future<?> future) {
        future.cancel(true);
    }

    private static void adminStops(Future<?> future) {
        future.cancel(true);
    }

    private static boolean isBy(Throwable error, String method) {
        return Arrays.stream(error.getStackTrace()).anyMatch(each -> each.getMethodName().equals(method));
    }

    /** A cancellation says who has cancelled this stage, also to a flow's that is asked for later, and once the request was closed. */
    static void stacks() {
        Request request = SERVICE.request();
        Stage<Object> one = request.promise(), two = request.promise(), behind = two.thenApply(x -> x);
        customerLeft(one);
        request.close();
        adminStops(two);
        request.close();
        CancellationException first = thrown(CancellationException.class, one::join), second = thrown(CancellationException.class, two::join);
        is(isBy(first, "customerLeft") + " " + isBy(first, "adminStops"), "true false");
        is(isBy(second, "customerLeft") + " " + isBy(second, "adminStops"), "false true");
        is(behind.exceptionNow() == second, true);
        Flow flow = new Flow("order");
        Flow.Step<Object> promise = flow.promise(), other = flow.promise(), next = other.thenApply(x -> x), all = promise.thenCombine(next, (x, y) -> x);
        Request begun = SERVICE.start(flow);
        customerLeft(begun.stage(promise));
        adminStops(begun.stage(other));
        is(isBy(begun.stage(next).exceptionNow(), "adminStops"), true);
        is(begun.stage(all).exceptionNow() == thrown(CancellationException.class, begun.stage(promise)::join), true);
    }

    /** What breaks in Java's own classes behind a stage keeps nothing from others, and is thrown to who settles it. */
    static void breaksInJavas() {
        class Mute extends RuntimeException {
            private static final long serialVersionUID = 1;

            @Override
            public String toString() {
                throw new IllegalStateException("mute");
            }
        }
        Stage<Object> stage = SERVICE.request().promise();
        Future<Void> javas = CompletableFuture.allOf(stage);
        Stage<String> behind = stage.handle((value, error) -> "told");
        is(thrown(IllegalStateException.class, () -> stage.completeExceptionally(new Mute())).getMessage(), "mute");
        is(behind.join() + " " + javas.isDone(), "told false");
    }
}
