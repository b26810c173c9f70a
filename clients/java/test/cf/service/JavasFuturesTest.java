package cf.service;

import static cf.service.Checks.is;
import static cf.service.Checks.SERVICE;

import java.util.ArrayList;
import java.util.Arrays;
import java.util.List;
import java.util.concurrent.CompletableFuture;
import java.util.concurrent.TimeUnit;

/** Java's own futures beside stages: its static methods over stages, and its methods that take one. */
final class JavasFuturesTest {
    private JavasFuturesTest() {}

    static void statics() {
        Request besideJava = SERVICE.request();
        Stage<String> a = besideJava.promise(), b = besideJava.promise();
        CompletableFuture<Void> all = CompletableFuture.allOf(a, b);
        CompletableFuture<Object> any = CompletableFuture.anyOf(a, b);
        CompletableFuture<String> own = new CompletableFuture<>();
        CompletableFuture<String> joined = own.thenCombine(a, (x, y) -> x + y);
        CompletableFuture<String> composed = own.thenCompose(x -> b);
        Stage<String> ours = a.thenCombine(own, (x, y) -> x + y);
        Stage<String> linked = a.thenCompose(x -> own);
        a.complete("a");
        is(any.join(), "a");
        is(all.isDone(), false);
        own.complete("o");
        is(joined.join() + ours.join() + linked.join(), "oaaoo");
        b.complete("b");
        is(all.isDone() && composed.join().equals("b"), true);
        Stage<String> mine = new Stage<String>(besideJava) {};
        mine.complete("m");
        is(mine.thenApply(x -> x + "!").join(), "m!");
        Request alone = SERVICE.request();
        is(new Stage<String>(alone) {}.request(), alone); // (also as its first stage)
        long began = System.nanoTime();
        is(besideJava.supplyAsync(() -> 1, besideJava.delayedExecutor(20, TimeUnit.MILLISECONDS)).join()
                + besideJava.supplyAsync(() -> 2, besideJava.delayedExecutor(20, TimeUnit.MILLISECONDS, Runnable::run)).join(), 3);
        is(System.nanoTime() - began >= 40_000_000, true);
    }

    /** What Java's own methods make behind a stage is a future of theirs, of which no request hears. */
    static void takenByJava() throws Exception {
        Request besideJava = SERVICE.request();
        Stage<Integer> open = besideJava.promise();
        List<Stage<Integer>> stages = Arrays.asList(besideJava.completedFuture(1),
                besideJava.failedFuture(new IllegalStateException("failed")), open);
        CompletableFuture<Integer> never = new CompletableFuture<>(), one = CompletableFuture.completedFuture(1);
        List<CompletableFuture<?>> javas = new ArrayList<>();
        for (Stage<Integer> each : stages) {
            javas.addAll(Arrays.asList(never.applyToEither(each, x -> x), never.applyToEitherAsync(each, x -> x), never.acceptEither(each, x -> {}),
                    never.acceptEitherAsync(each, x -> {}), never.runAfterEither(each, () -> {}), never.runAfterEitherAsync(each, () -> {}),
                    CompletableFuture.anyOf(each), CompletableFuture.anyOf(never, each), CompletableFuture.allOf(each),
                    CompletableFuture.allOf(one, each), one.thenCombine(each, Integer::sum), one.thenAcceptBothAsync(each, (x, y) -> {}),
                    one.runAfterBoth(each, () -> {}), one.thenCompose(x -> each)));
        }
        open.complete(2);
        for (CompletableFuture<?> each : javas) {
            is(each.handle((value, error) -> "called").get(20, TimeUnit.SECONDS), "called");
            is(each.isDone(), true);
            is(each.complete(null), false);
        }
        is(besideJava.history().stages(), 3);
        is(open.newIncompleteFuture().getClass() == CompletableFuture.class, true);
        for (int k = 3; k < 4096; k++) {
            besideJava.promise();
        }
        is(CompletableFuture.anyOf(open).join(), 2);
    }
}
