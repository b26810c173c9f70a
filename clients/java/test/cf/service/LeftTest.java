package cf.service;

import static cf.service.Checks.is;

import cf.internal.Form;
import cf.internal.Words;
import java.util.ArrayList;
import java.util.Arrays;
import java.util.IdentityHashMap;
import java.util.List;
import java.util.Map;
import java.util.Random;
import java.util.concurrent.CompletableFuture;
import java.util.concurrent.CompletionStage;
import java.util.concurrent.Executor;
import java.util.concurrent.atomic.AtomicInteger;
import java.util.function.BiFunction;
import java.util.function.Function;

/**
 * Short random programs in one thread, with executors that keep what they are handed. Once all of that was called, nothing that could go on may be
 * left: a stage is open only if something that it needs is, or nobody has settled it. {@code -Dtest.seeds=COUNT} tries so many.
 */
final class LeftTest {
    private static final int SEEDS = Integer.getInteger("test.seeds", 150), MOST_ACTS = 40, MOST_STAGES = 200;

    private final Random random;
    private final List<Runnable> queue = new ArrayList<>();
    private final AtomicInteger hooks = new AtomicInteger();
    private final Service service;
    private final List<Request> requests = new ArrayList<>();
    private final List<Stage<Object>> stages = new ArrayList<>();
    private final List<CompletableFuture<Object>> futures = new ArrayList<>();
    /** Of stages by relays what they stand for. */
    private final Map<Stage<Object>, CompletableFuture<Object>> adopted = new IdentityHashMap<>();

    private LeftTest(long seed) {
        random = new Random(seed);
        Executor keeps = queue::add;
        service = new Service(keeps).onEnd(history -> hooks.incrementAndGet());
        requests.add(service.request("one"));
        requests.add(service.request("two"));
    }

    private Request request() {
        return requests.get(random.nextInt(requests.size()));
    }

    private Stage<Object> stage() {
        return stages.isEmpty() || random.nextInt(8) == 0 ? add(request().promise()) : stages.get(random.nextInt(stages.size()));
    }

    private Stage<Object> add(Stage<Object> stage) {
        stages.add(stage);
        return stage;
    }

    /** A stage of either request, or a future of Java's. */
    private CompletionStage<Object> any() {
        if (random.nextInt(6) > 0) {
            return stage();
        }
        futures.add(new CompletableFuture<>());
        return futures.get(random.nextInt(futures.size()));
    }

    private Executor executor() {
        return random.nextInt(12) > 0 ? queue::add : act -> {
            throw new Checks.Broken();
        };
    }

    /** What a function does: it gives something, throws, or acts before that. */
    private Object act() {
        int what = random.nextInt(10);
        if (what == 0) {
            throw new IllegalStateException();
        } else if (what == 1 && stages.size() < MOST_STAGES) {
            one();
        } else if (what == 2) {
            settle(stage());
        }
        return what == 3 ? null : what;
    }

    private void settle(Stage<Object> stage) {
        switch (random.nextInt(4)) {
            case 0:
                stage.completeExceptionally(new IllegalStateException());
                break;
            case 1:
                stage.cancel(true);
                break;
            case 2:
                Checks.timeOut(stage);
                break;
            default:
                stage.complete(1);
        }
    }

    private Stage<Object> behind(Stage<Object> stage) {
        boolean isAsync = random.nextBoolean();
        Function<Object, Object> function = x -> act();
        Function<Throwable, Object> failure = error -> act();
        BiFunction<Object, Object, Object> both = (x, y) -> act();
        BiFunction<Object, Throwable, Object> ended = (x, error) -> act();
        switch (random.nextInt(9)) {
            case 0:
                return isAsync ? stage.handleAsync(ended, executor()) : stage.handle(ended);
            case 1:
                return isAsync ? stage.whenCompleteAsync((x, error) -> act(), executor()) : stage.whenComplete((x, error) -> act());
            case 2:
                return isAsync ? stage.exceptionallyAsync(failure, executor()) : stage.exceptionally(failure);
            case 3:
                return isAsync ? stage.thenCombineAsync(any(), both, executor()) : stage.thenCombine(any(), both);
            case 4:
                return isAsync ? stage.applyToEitherAsync(any(), function, executor()) : stage.applyToEither(any(), function);
            case 5:
                return isAsync ? stage.thenComposeAsync(x -> any(), executor()) : stage.thenCompose(x -> any());
            case 6:
                return isAsync ? stage.exceptionallyComposeAsync(x -> any(), executor()) : stage.exceptionallyCompose(x -> any());
            case 7:
                return stage.copy();
            default:
                return isAsync ? stage.thenApplyAsync(function, executor()) : stage.thenApply(function);
        }
    }

    @SuppressWarnings("unchecked")
    private Stage<Object> gathered() {
        CompletionStage<?>[] of = new CompletionStage<?>[random.nextInt(5)];
        Arrays.setAll(of, k -> any());
        return random.nextBoolean() ? (Stage<Object>) (Stage<?>) request().allOf(of) : request().anyOf(of);
    }

    private void one() {
        switch (random.nextInt(16)) {
            case 0:
                try {
                    add(request().supplyAsync(this::act, executor()));
                } catch (Checks.Broken refused) {
                    break;
                }
                break;
            case 1:
                add(gathered());
                break;
            case 2:
                CompletionStage<Object> of = any();
                adopted.put(add(request().adopt(of)), of.toCompletableFuture());
                break;
            case 3:
                if (!futures.isEmpty()) {
                    futures.get(random.nextInt(futures.size())).complete(1);
                }
                break;
            case 4:
            case 5:
            case 6:
                run();
                break;
            case 7:
            case 8:
            case 9:
                settle(stage());
                break;
            case 10:
                rarely();
                break;
            default:
                add(behind(stage()));
        }
    }

    private void rarely() {
        Stage<Object> stage = stage();
        switch (random.nextInt(8)) {
            case 0:
                stage.request().cancelAll();
                break;
            case 3:
                Thread.currentThread().interrupt();
                break;
            case 4:
                stage.completeAsync(this::act);
                break;
            default:
                stage.request().close();
        }
    }

    /** Calls one of those that executors have, whichever. */
    private void run() {
        if (!queue.isEmpty()) {
            queue.remove(random.nextInt(queue.size())).run();
        }
    }

    private void all() throws Exception {
        for (int k = 5 + random.nextInt(MOST_ACTS); k > 0; k--) {
            one();
        }
        while (!queue.isEmpty()) {
            run();
        }
        Thread.interrupted();
        requests.forEach(LeftTest::judge);
        adopted.forEach((stage, of) -> is(of.isDone() && !stage.isDone(), false));
        for (Stage<Object> each : stages) {
            String end = Checks.ends(each.request().history())[each.number()];
            is(each.isDone(), !end.equals("pending"));
            // Who waits by a class of Java's is woken.
            is(CompletableFuture.allOf(each).isDone(), each.isDone());
        }
        requests.forEach(Request::cancelAll);
        requests.forEach(Request::close);
        requests.forEach(Request::close);
        service.ends().drain(20);
        is(hooks.get(), requests.size());
    }

    /** Nothing is left in this request that could go on. */
    private static void judge(Request request) {
        History history = request.history();
        String[] ends = Checks.ends(history);
        Form[] forms = history.allForms();
        int[][] of = history.allSources();
        int[] links = new int[of.length];
        Arrays.fill(links, -1);
        for (long word : history.words()) {
            if (Words.isLinking(word)) {
                links[Words.stage(word)] = Words.lowBits(word);
            }
        }
        for (int k = 0; k < of.length; k++) {
            long open = Arrays.stream(of[k]).filter(source -> ends[source].equals("pending")).count();
            boolean isOneEnough = forms[k] == Form.ANY_OF || forms[k] == Form.APPLY_EITHER;
            boolean mayWait = forms[k] == Form.SOURCE || (of[k].length == 0 ? forms[k] == Form.ANY_OF : isOneEnough ? open == of[k].length : open > 0)
                    || links[k] >= 0 && ends[links[k]].equals("pending");
            if (ends[k].equals("pending") && !mayWait) {
                throw new AssertionError(k + " could go on\n" + history);
            }
        }
    }

    static void programs() throws Exception {
        for (int seed = 0; seed < SEEDS; seed++) {
            try {
                new LeftTest(seed).all();
            } catch (Throwable wrong) {
                throw new AssertionError("the program of seed " + seed, wrong);
            }
        }
    }
}
