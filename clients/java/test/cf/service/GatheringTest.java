package cf.service;

import static cf.service.Checks.is;
import static cf.service.Checks.SERVICE;
import static cf.service.Checks.thrown;

import java.util.ArrayList;
import java.util.Arrays;
import java.util.Collections;
import java.util.List;
import java.util.Random;
import java.util.concurrent.CompletableFuture;
import java.util.concurrent.CompletionException;
import java.util.concurrent.CompletionStage;

/** Stages that wait for all of many stages, or for one of them. */
final class GatheringTest {
    private GatheringTest() {}

    /** They end as Java's own do over futures that end alike, in any order, also where these were settled before. */
    static void asJavas() {
        Request refusing = SERVICE.request();
        for (CompletionStage<?>[] none : new CompletionStage<?>[][] {{null}, {refusing.promise(), null}, {refusing.promise(), null, refusing.promise()}}) {
            int stages = refusing.history().stages();
            thrown(NullPointerException.class, () -> refusing.allOf(none));
            thrown(NullPointerException.class, () -> refusing.anyOf(none));
            is(refusing.history().stages(), stages);
        }
        for (int seed = 0; seed < 300; seed++) {
            Random random = new Random(seed);
            int count = 1 + random.nextInt(4), mentions = 3 + random.nextInt(seed % 10 == 0 ? 400 : 6);
            Request gathering = SERVICE.request();
            List<Stage<Integer>> stages = new ArrayList<>();
            List<CompletableFuture<Integer>> futures = new ArrayList<>();
            List<Integer> order = new ArrayList<>();
            for (int k = 0; k < count; k++) {
                stages.add(gathering.promise());
                futures.add(new CompletableFuture<>());
                order.add(k);
            }
            Collections.shuffle(order, random);
            Stage<?>[] some = new Stage<?>[mentions];
            CompletableFuture<?>[] same = new CompletableFuture<?>[mentions];
            for (int k = 0; k < mentions; k++) {
                int one = random.nextInt(count);
                some[k] = stages.get(one);
                same[k] = futures.get(one);
            }
            int before = random.nextInt(count + 1);
            for (int one : order.subList(0, before)) {
                settle(random.nextInt(3), one, stages.get(one), futures.get(one));
            }
            boolean all = random.nextBoolean();
            Stage<?> root = all ? gathering.allOf(some) : gathering.anyOf(some);
            CompletableFuture<?> javas = all ? CompletableFuture.allOf(same) : CompletableFuture.anyOf(same);
            is(root.number(), count + mentions - 2);
            is(end(root), end(javas));
            for (int one : order.subList(before, count)) {
                settle(random.nextInt(3), one, stages.get(one), futures.get(one));
                is(end(root), end(javas));
            }
            is(gathering.history().stages(), count + mentions - 1);
            is(gathering.history().events(), 2 * count + mentions - 1);
        }
    }

    private static void settle(int how, int value, CompletableFuture<Integer> one, CompletableFuture<Integer> other) {
        IllegalStateException failure = new IllegalStateException("no " + value);
        for (CompletableFuture<Integer> each : Arrays.asList(one, other)) {
            is(how == 0 ? each.complete(value) : how == 1 ? each.completeExceptionally(failure) : each.cancel(true), true);
        }
    }

    private static String end(CompletableFuture<?> future) {
        try {
            return future.isDone() ? "value " + future.join() : "none";
        } catch (CompletionException failed) {
            return "for " + failed.getCause();
        }
    }

    /** There may be many more of them than there was room for; where they aren't all let in, none is. */
    static void room() {
        Request gathering = SERVICE.request();
        Stage<Integer> one = gathering.promise();
        Stage<?>[] often = new Stage<?>[4097];
        Arrays.fill(often, one);
        thrown(RequestFullException.class, () -> gathering.anyOf(often));
        CompletableFuture<?>[] mixed = Arrays.copyOf(often, 4096, CompletableFuture[].class);
        mixed[7] = new CompletableFuture<>();
        thrown(RequestFullException.class, () -> gathering.anyOf(mixed));
        is(gathering.history().stages() + one.getNumberOfDependents() + mixed[7].getNumberOfDependents(), 1);
        Stage<Object> root = gathering.anyOf(Arrays.copyOf(often, 4096));
        is(gathering.history().stages() + one.getNumberOfDependents(), 2 * 4096);
        Stage<?> behind = SERVICE.request().adopt(root);
        gathering.close();
        one.complete(5);
        is(root.join(), 5);
        is(behind.join(), 5);
    }

    /** Of a request that goes on any number is gathered, in several requests, and what lives long keeps none of them. */
    static void parts() {
        Request gathering = SERVICE.request().continueInNext();
        Stage<?>[] row = new Stage<?>[3000];
        for (int k = 0; k < row.length; k++) {
            row[k] = gathering.promise();
        }
        CompletableFuture<?>[] mixed = Arrays.copyOf(row, row.length, CompletableFuture[].class);
        CompletableFuture<Object> lives = new CompletableFuture<>();
        mixed[2500] = lives;
        Stage<Void> all = gathering.allOf(row);
        Stage<Object> any = gathering.anyOf(mixed);
        is(lives.getNumberOfDependents(), 1);
        row[7].complete(null);
        is(any.isDone(), true);
        is(lives.getNumberOfDependents(), 0);
        for (Stage<?> each : row) {
            is(all.isDone(), false);
            each.complete(null);
        }
        is(all.join(), null);
    }
}
