package cf.service;

import static cf.service.Checks.await;
import static cf.service.Checks.is;
import static cf.service.Checks.SERVICE;
import static cf.service.Checks.thrown;

import java.util.ArrayList;
import java.util.Arrays;
import java.util.List;
import java.util.concurrent.CancellationException;
import java.util.concurrent.CompletableFuture;
import java.util.concurrent.CountDownLatch;
import java.util.concurrent.TimeUnit;
import java.util.concurrent.TimeoutException;
import java.util.concurrent.atomic.AtomicBoolean;
import java.util.concurrent.atomic.AtomicReference;

/** Asking a stage and waiting for it: isDone, getNow, resultNow, exceptionNow, get and join, also when the thread is interrupted. */
final class AskingTest {
    private AskingTest() {}

    /** As Java 19 has it, also before that; there the state, too. */
    static void toldNow() throws Exception {
        Request asked = SERVICE.request();
        Stage<Integer> given = asked.completedFuture(3), open = asked.promise(), cancelled = asked.promise();
        Stage<Integer> failed = given.thenApply(x -> x / (x - 3));
        is(cancelled.cancel(true) && cancelled.cancel(true) && asked.failedFuture(new CancellationException()).cancel(true), true);
        is(given.cancel(true), false);
        is(given.resultNow(), 3);
        is(asked.completedFuture(null).resultNow(), null);
        String one = new String("equal"), other = new String("equal");
        is(asked.completedFuture(one).join() == one && asked.completedFuture(other).join() == other, true);
        is(failed.exceptionNow() instanceof ArithmeticException, true);
        for (Stage<Integer> each : Arrays.asList(open, cancelled, failed)) {
            thrown(IllegalStateException.class, each::resultNow);
        }
        for (Stage<Integer> each : Arrays.asList(open, cancelled, given)) {
            thrown(IllegalStateException.class, each::exceptionNow);
        }
        java.lang.reflect.Method state;
        try {
            state = CompletableFuture.class.getMethod("state");
        } catch (NoSuchMethodException older) {
            return;
        }
        is("" + state.invoke(given) + state.invoke(open) + state.invoke(cancelled) + state.invoke(failed), "SUCCESSRUNNINGCANCELLEDFAILED");
        for (int k = 0; k < 2000; k++) {
            Stage<Integer> called = SERVICE.supplyAsync(() -> 1);
            while (k % 2 == 0 && !called.isDone()) {
                Thread.yield();
            }
            called.join();
            is("" + state.invoke(called), "SUCCESS");
        }
    }

    /** As Future says: get is interrupted, join isn't, and a cancellation interrupts nobody. */
    static void interrupts() throws Exception {
        Request asked = SERVICE.request();
        Stage<String> awaited = asked.promise();
        Thread.currentThread().interrupt();
        thrown(InterruptedException.class, awaited::get);
        is(Thread.currentThread().isInterrupted(), false);
        Thread.currentThread().interrupt();
        thrown(InterruptedException.class, () -> awaited.get(20, TimeUnit.SECONDS));
        thrown(TimeoutException.class, () -> awaited.get(1, TimeUnit.MILLISECONDS));
        AtomicBoolean kept = new AtomicBoolean();
        CountDownLatch waits = new CountDownLatch(1);
        Thread joins = new Thread(() -> {
            Thread.currentThread().interrupt();
            waits.countDown();
            awaited.join();
            kept.set(Thread.interrupted());
        });
        joins.start();
        waits.await();
        joins.interrupt();
        joins.join(20);
        is(joins.isAlive(), true);
        awaited.complete("done");
        joins.join();
        is(kept.get(), true);
        Thread.currentThread().interrupt();
        is(awaited.get(), "done");
        is(Thread.interrupted(), true);
        CountDownLatch runs = new CountDownLatch(1), go = new CountDownLatch(1);
        AtomicBoolean interrupted = new AtomicBoolean(true);
        Stage<Void> running = asked.runAsync(() -> {
            runs.countDown();
            try {
                interrupted.set(!go.await(20, TimeUnit.SECONDS));
            } catch (InterruptedException told) {
                interrupted.set(true);
            }
        }, run -> new Thread(run).start());
        runs.await();
        is(running.cancel(true), true);
        go.countDown();
        thrown(CancellationException.class, running::join);
        while (!asked.history().toString().contains("too late")) {
            Thread.sleep(1);
        }
        is(interrupted.get(), false);
    }

    /**
     * The thread that has settled stages is held up while it tells the first one. Who asks, or waits, finds the others settled, also by Java's
     * own classes, and calls nobody's functions.
     */
    static void onlyAsks() throws Exception {
        Request asked = SERVICE.request();
        Stage<Integer> askedFirst = asked.promise(), askedSecond = askedFirst.copy(), askedThird = askedFirst.copy();
        Stage<Integer> askedFourth = askedFirst.thenApply(x -> x);
        CountDownLatch runs = new CountDownLatch(1), go = new CountDownLatch(1);
        CompletableFuture.allOf(askedFirst).thenRun(() -> {
            runs.countDown();
            await(go);
        });
        AtomicReference<String> caller = new AtomicReference<>();
        CompletableFuture<Void> behind = CompletableFuture.allOf(askedSecond).thenRun(() -> caller.set(Thread.currentThread().getName()));
        Thread thread = new Thread(() -> askedFirst.complete(1), "settles");
        thread.start();
        await(runs);
        is(askedSecond.isDone() && !askedSecond.isCancelled(), true);
        is(askedSecond.getNow(0) == 1 && askedSecond.get() == 1 && askedSecond.join() == 1, true);
        is(askedSecond.get(20, TimeUnit.SECONDS), 1);
        is(caller.get(), null);
        is(askedThird.isDone() && CompletableFuture.allOf(askedThird).isDone(), true);
        is(CompletableFuture.anyOf(askedThird, askedFourth).join().equals(1), true);
        is(askedThird.thenCombine(askedSecond, Integer::sum).join(), 2);
        is(askedFourth.isDone(), false);
        go.countDown();
        behind.get(20, TimeUnit.SECONDS);
        is(caller.get(), "settles");
        thread.join();
    }

    /** Of one settled stage 1,000 others have news, which come in several parts. */
    static void manyNews() {
        Request asked = SERVICE.request();
        Stage<Integer> askedFirst = asked.promise();
        List<Stage<Integer>> copies = new ArrayList<>(), called = new ArrayList<>();
        for (int k = 0; k < 1000; k++) {
            int each = k;
            copies.add(askedFirst.copy());
            called.add(askedFirst.thenApply(x -> x + each));
        }
        askedFirst.complete(7);
        for (int k = 0; k < 1000; k++) {
            is(copies.get(k).getNow(0), 7);
            is(called.get(k).getNow(0), 7 + k);
        }
    }
}
