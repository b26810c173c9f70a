package cf.service;

import static cf.service.Checks.foreign;
import static cf.service.Checks.is;
import static cf.service.Checks.SERVICE;
import static cf.service.Checks.thrown;

import cf.internal.Form;
import java.util.ArrayList;
import java.util.Arrays;
import java.util.List;
import java.util.concurrent.CompletableFuture;
import java.util.concurrent.CompletionStage;
import java.util.concurrent.ExecutionException;
import java.util.concurrent.FutureTask;
import java.util.concurrent.TimeUnit;
import java.util.concurrent.atomic.AtomicInteger;
import java.util.function.Function;

/** Long chains of stages, which no stack is deep enough for, and stacks that end within a call. */
final class ChainsTest {
    private ChainsTest() {}

    /** A chain through many requests is no recursion. */
    static void backAndForth() {
        Request one = SERVICE.request().continueInNext(), other = SERVICE.request().continueInNext();
        Stage<Integer> firstLink = one.promise(), lastLink = firstLink;
        for (int k = 0; k < 20_000; k++) {
            Stage<Integer> next = (k % 2 == 0 ? other : one).promise();
            lastLink = next.applyToEither(lastLink, x -> x + 1);
        }
        firstLink.complete(0);
        is(lastLink.join(), 20_000);
    }

    /** Runs it in a thread with a stack of so many KB. */
    private static void withStack(int kilobytes, Runnable act) throws Exception {
        FutureTask<Void> task = new FutureTask<>(act, null);
        new Thread(null, task, "stack", kilobytes << 10).start();
        task.get(60, TimeUnit.SECONDS);
    }

    /** A chain of functions that give finished futures of any kind is no recursion. */
    static void finishedChains() throws Exception {
        int links = 3000;
        List<Function<Integer, CompletionStage<Integer>>> kinds = Arrays.asList(CompletableFuture::completedFuture,
                x -> CompletableFuture.completedFuture(x).minimalCompletionStage(), x -> SERVICE.request().completedFuture(x),
                x -> foreign(CompletableFuture.completedFuture(x)));
        for (Function<Integer, CompletionStage<Integer>> kind : kinds) {
            Request chained = SERVICE.request().continueInNext();
            Stage<Integer> firstLink = chained.promise(), lastLink = firstLink, failed = chained.promise(), saved = failed;
            AtomicInteger deepest = new AtomicInteger();
            for (int k = 0; k < links; k++) {
                lastLink = lastLink.thenCompose(x -> {
                    if (x % 300 == 299) {
                        deepest.accumulateAndGet(new Throwable().getStackTrace().length, Math::max);
                    }
                    return kind.apply(x + 1);
                });
                saved = saved.exceptionallyCompose(error -> kind.apply(0).thenCompose(x -> {
                    throw new IllegalStateException();
                }));
            }
            withStack(256, () -> firstLink.complete(0));
            is(lastLink.get(20, TimeUnit.SECONDS), links);
            is(deepest.get() < 100, true);
            withStack(256, () -> failed.completeExceptionally(new IllegalStateException()));
            Stage<Integer> thrown = saved;
            is(thrown(ExecutionException.class, () -> thrown.get(20, TimeUnit.SECONDS)).getCause() instanceof IllegalStateException, true);
        }
    }

    /** Stages that were linked to later ones of the same request end one after another. */
    static void linkedChains() throws Exception {
        Request chained = SERVICE.request();
        Stage<Integer> firstLink = chained.promise();
        List<Stage<Integer>> linkedStages = new ArrayList<>();
        for (int k = 0; k < 2000; k++) {
            int next = k + 1;
            linkedStages.add(firstLink.thenCompose(x -> linkedStages.get(next)));
        }
        Stage<Integer> lastLink = chained.promise();
        linkedStages.add(lastLink);
        firstLink.complete(0);
        withStack(200, () -> lastLink.complete(7));
        is(linkedStages.get(0).get(20, TimeUnit.SECONDS), 7);
    }

    /** A chain that goes to and fro between stages and futures of Java's: however deep that calls back, all of it ends. */
    static void foreignChains() throws Exception {
        Request chained = SERVICE.request().continueInNext();
        Stage<Void> firstLink = chained.promise(), lastLink = firstLink;
        for (int k = 0; k < 3000; k++) {
            lastLink = chained.adopt(CompletableFuture.allOf(lastLink));
        }
        withStack(256, () -> firstLink.complete(null));
        is(lastLink.get(20, TimeUnit.SECONDS), null);
    }

    private static int deep(int levels, Runnable act) {
        if (levels == 0) {
            act.run();
            return 0;
        }
        return deep(levels - 1, act) + 1;
    }

    private static boolean endsStack(int levels, Runnable act) {
        try {
            deep(levels, act);
            return false;
        } catch (StackOverflowError end) {
            return true;
        }
    }

    /** Where the stack ends within a call, the request is whole: others go on with it. */
    static void deepStacks() throws Exception {
        Service service = new Service(Runnable::run);
        IllegalStateException failure = new IllegalStateException();
        for (int round = 0; round < 6; round++) {
            Request chained = service.request("deep").continueInNext();
            Stage<Integer> firstLink = chained.promise(), behind = firstLink.thenApply(x -> x + 1), done = chained.completedFuture(1);
            List<Stage<?>> linkedStages = new ArrayList<>();
            List<Runnable> uses = Arrays.asList(() -> {
                Stage<Integer> stage = chained.promise();
                linkedStages.add(stage);
                linkedStages.add(stage.thenApply(x -> x + 1));
                stage.complete(1);
            }, () -> {
                linkedStages.add(chained.allOf(done, chained.promise(), CompletableFuture.completedFuture(1)));
                linkedStages.get(linkedStages.size() - 1).cancel(true);
            }, () -> linkedStages.add(chained.supplyAsync(() -> 1)), () -> linkedStages.add(done.thenCompose(x -> done).handle((x, e) -> 1)), () -> {
                linkedStages.add(chained.promise());
                linkedStages.get(linkedStages.size() - 1).completeExceptionally(failure);
            }, () -> linkedStages.add(done.thenCompose(x -> CompletableFuture.completedFuture(x))));
            Runnable use = uses.get(round);
            withStack(190 + round, () -> {
                int levels = 100;
                while (!endsStack(levels, use)) {
                    levels += 1 + levels / 50;
                }
                levels -= levels / 25;
                for (int ended = 0; ended < 40; levels++) {
                    ended += endsStack(levels, use) ? 1 : 0;
                }
            });
            withStack(512, () -> firstLink.complete(1));
            is(behind.get(20, TimeUnit.SECONDS), 2);
            for (Stage<?> each : linkedStages) {
                if (each.form == Form.SOURCE || each.form == Form.ALL_OF) {
                    each.complete(null);
                }
                is(each.isDone(), true);
            }
            Stage<Integer> more = chained.promise(), next = more.thenApply(x -> x + 1);
            more.complete(3);
            is(next.get(20, TimeUnit.SECONDS), 4);
            for (Request each = chained; each != null; each = each.next()) {
                is(each.history().toString().contains("deep"), true);
            }
        }
    }
}
