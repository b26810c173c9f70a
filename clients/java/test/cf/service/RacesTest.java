package cf.service;

import static cf.service.Checks.is;
import static cf.service.Checks.SERVICE;

import cf.testing.Orders;
import java.util.ArrayList;
import java.util.Arrays;
import java.util.Collections;
import java.util.HashSet;
import java.util.List;
import java.util.Set;
import java.util.concurrent.CompletableFuture;
import java.util.concurrent.CompletionStage;
import java.util.concurrent.CountDownLatch;
import java.util.concurrent.CyclicBarrier;
import java.util.concurrent.ExecutorService;
import java.util.concurrent.Executors;
import java.util.concurrent.Future;
import java.util.concurrent.FutureTask;
import java.util.concurrent.TimeUnit;
import java.util.concurrent.atomic.AtomicInteger;
import java.util.concurrent.atomic.AtomicReference;

/** Threads that race to settle one stage, and to hang relays on it. */
final class RacesTest {
    private RacesTest() {}

    /** Of completing, failing, cancelling and the clock exactly one settles a stage, whoever asks sees it alike, and the history says who. */
    static void races() throws Exception {
        int rounds = Integer.getInteger("test.races", 500);
        ExecutorService pool = Executors.newFixedThreadPool(4);
        CyclicBarrier together = new CyclicBarrier(4);
        int[] won = new int[5];
        for (int k = 0; k < rounds; k++) {
            Request racing = SERVICE.request();
            Stage<String> raced = racing.promise();
            Stage<String> behind = raced.handle((value, error) -> error == null ? value : error.getClass().getSimpleName());
            AtomicInteger winner = new AtomicInteger(4), winners = new AtomicInteger();
            List<Object> seen = Collections.synchronizedList(new ArrayList<>());
            CountDownLatch done = new CountDownLatch(4);
            for (int t = 0; t < 4; t++) {
                int who = t;
                pool.execute(() -> {
                    try {
                        together.await();
                        boolean did = who == 0 ? raced.complete("completed") : who == 1 ? raced.completeExceptionally(new IllegalStateException())
                                : who == 2 ? cancelled(raced) : clocked(raced);
                        if (did) {
                            winner.set(who);
                            winners.incrementAndGet();
                        }
                        seen.add(raced.handle((value, error) -> error == null ? value : error.getClass().getSimpleName()).join());
                    } catch (Throwable thrown) {
                        seen.add(thrown);
                    } finally {
                        done.countDown();
                    }
                });
            }
            done.await();
            String wanted = behind.get(20, TimeUnit.SECONDS);
            for (Object each : seen) {
                is(each, wanted);
            }
            String[] ends = {"completed", "IllegalStateException", "CancellationException", "", ""};
            is(winners.get() <= 1, true);
            is(winner.get() == 4 ? "TimeoutException" : ends[winner.get()], wanted);
            won[winner.get()]++;
            String said = racing.history().toString();
            is(said.split("0 source ends", -1).length, 2);
        }
        pool.shutdown();
        if (Boolean.getBoolean("test.times")) {
            System.out.println("           won by complete, fail, cancel, the clock: " + won[0] + " " + won[1] + " " + won[2] + " " + won[4]);
        }
    }

    /** The same in every order: each of the four comes first in some, and what threads that race seldom meet is met. */
    static void everyOrder() {
        Set<String> seen = new HashSet<>();
        Orders.of(world -> {
            List<String> winners = new ArrayList<>();
            Request racing = world.service().request();
            Stage<String> raced = racing.<String>promise().orTimeout(1, TimeUnit.SECONDS);
            Stage<String> behind = world.pure(raced.handle((value, error) -> error == null ? value : error.getClass().getSimpleName()));
            world.calls("one", () -> won(winners, raced.complete("completed"), "completed"));
            world.calls("two", () -> won(winners, raced.completeExceptionally(new IllegalStateException()), "IllegalStateException"));
            world.calls("three", () -> won(winners, cancelled(raced), "CancellationException"));
            world.atEnd(() -> {
                String end = behind.join();
                is(raced.handle((value, error) -> error == null ? value : error.getClass().getSimpleName()).join(), end);
                is(winners, end.equals("TimeoutException") ? Collections.emptyList() : Collections.singletonList(end));
                is(racing.history().toString().split("0 source ends", -1).length, 2);
                return seen.add(end) || true;
            }, "all see the same end, and the history has it once");
            world.settles(behind);
        }).seconds(600).whole().check();
        is(seen, new HashSet<>(Arrays.asList("completed", "IllegalStateException", "CancellationException", "TimeoutException")));
    }

    private static void won(List<String> winners, boolean did, String end) {
        if (did) {
            winners.add(end);
        }
    }

    /** What cancel answers is what has become of the stage. */
    private static boolean cancelled(Stage<String> raced) {
        boolean did = raced.cancel(true);
        is(did, raced.isCancelled());
        return did;
    }

    /** A stage that is settled while a cancel waits for the request's lock isn't cancelled, and the cancel says so. */
    static void cancelsTooLate() throws Exception {
        Stage<Integer> raced = SERVICE.request().promise();
        FutureTask<Boolean> cancel = new FutureTask<>(() -> raced.cancel(true));
        Thread cancels = new Thread(cancel, "cancels");
        synchronized (raced.request.machine) {
            cancels.start();
            Checks.awaitBlocked(cancels, raced.request.machine);
            is(raced.complete(1), true);
        }
        is(cancel.get(20, TimeUnit.SECONDS), false);
        is(raced.isCancelled(), false);
        is(raced.request.history().script().contains("[\"cancel\",0]"), true);
    }

    /** The clock settles it at once; that isn't told to this thread. */
    private static boolean clocked(Stage<String> raced) {
        raced.orTimeout(0, TimeUnit.NANOSECONDS);
        return false;
    }

    /** Stages of other requests come to hang on one, by several threads and at its end, and none is forgotten. */
    static void relayRaces() throws Exception {
        int rounds = Integer.getInteger("test.races", 500) / 5;
        ExecutorService pool = Executors.newFixedThreadPool(4);
        CyclicBarrier together = new CyclicBarrier(4);
        for (int k = 0; k < rounds; k++) {
            Stage<Integer> raced = SERVICE.request().promise();
            CompletableFuture<Integer> java = new CompletableFuture<>();
            List<Future<List<Stage<Integer>>>> hang = new ArrayList<>();
            for (int t = 0; t < 4; t++) {
                boolean settles = t == 0;
                hang.add(pool.submit(() -> {
                    Request racing = SERVICE.request();
                    Stage<Integer> own = racing.promise();
                    List<Stage<Integer>> made = new ArrayList<>();
                    together.await();
                    for (int one = 0; one < 100; one++) {
                        if (settles && one == 90) {
                            raced.complete(1);
                            java.complete(2);
                        }
                        CompletionStage<Integer> of = one % 4 == 3 ? java : raced;
                        made.add(one % 2 == 0 ? racing.adopt(of) : own.applyToEither(of, x -> x));
                        if (one % 5 == 4) {
                            made.get(one).cancel(false);
                        }
                    }
                    return made;
                }));
            }
            for (Future<List<Stage<Integer>>> each : hang) {
                for (Stage<Integer> one : each.get(20, TimeUnit.SECONDS)) {
                    one.handle((x, e) -> 0).get(20, TimeUnit.SECONDS);
                }
            }
            is(raced.extras.outsideLinks.takeAll() == null, true);
        }
        AtomicReference<Stage<Integer>> next = new AtomicReference<>();
        AtomicReference<List<Stage<Integer>>> hung = new AtomicReference<>();
        int steps = 20 * rounds;
        Future<?> hangs = pool.submit(() -> {
            for (int k = 0; k < steps; k++) {
                Stage<Integer> raced = taken(next);
                Request racing = SERVICE.request().continueInNext();
                List<Stage<Integer>> made = new ArrayList<>();
                while (!raced.isDone()) {
                    if (made.size() < 10_000) { // (while the other thread is held up, these would fill the memory)
                        made.add(racing.adopt(raced));
                    }
                }
                hung.set(made);
            }
        });
        for (int k = 0; k < steps; k++) {
            Stage<Integer> raced = SERVICE.request().promise();
            next.set(raced);
            for (int spin = 0; spin < 20 + k % 100; spin++) {
                Thread.onSpinWait();
            }
            raced.complete(k);
            for (Stage<Integer> each : taken(hung)) {
                is(each.get(20, TimeUnit.SECONDS), k);
            }
        }
        hangs.get();
        pool.shutdown();
    }

    /** What another thread puts there, which is waited for as shortly as can be. */
    private static <U> U taken(AtomicReference<U> from) {
        U put;
        for (int k = 1; (put = from.getAndSet(null)) == null; k++) {
            if (k % 1000 == 0) {
                Thread.yield();
            }
        }
        return put;
    }
}
