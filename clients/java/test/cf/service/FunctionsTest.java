package cf.service;

import static cf.service.Checks.await;
import static cf.service.Checks.breaks;
import static cf.service.Checks.is;
import static cf.service.Checks.refusing;
import static cf.service.Checks.SERVICE;
import static cf.service.Checks.thrown;

import cf.internal.Words;
import java.util.ArrayList;
import java.util.Arrays;
import java.util.HashSet;
import java.util.List;
import java.util.Set;
import java.util.TreeSet;
import java.util.concurrent.CompletableFuture;
import java.util.concurrent.CompletionException;
import java.util.concurrent.CompletionStage;
import java.util.concurrent.CountDownLatch;
import java.util.concurrent.ExecutionException;
import java.util.concurrent.Executor;
import java.util.concurrent.ExecutorService;
import java.util.concurrent.Executors;
import java.util.concurrent.RejectedExecutionException;
import java.util.concurrent.TimeUnit;
import java.util.stream.Collectors;
import java.util.stream.IntStream;

/** Which thread calls a stage's function, and by which executor? What if the function or the executor throws? */
final class FunctionsTest {
    private FunctionsTest() {}

    /**
     * Those that one event made ready are this thread's: nobody else calls them, whatever other threads settle meanwhile. One whose stage is
     * settled before it was called isn't called.
     */
    static void together() throws Exception {
        Request calling = SERVICE.request();
        Stage<Integer> first = calling.promise(), second = calling.promise();
        List<String> called = new ArrayList<>();
        List<Stage<Object>> behind = new ArrayList<>();
        CountDownLatch runs = new CountDownLatch(1), go = new CountDownLatch(1);
        for (int k = 0; k < 5; k++) {
            int each = k;
            behind.add(first.thenApply(x -> {
                called.add(each + " " + Thread.currentThread().getName());
                if (each == 1) {
                    behind.get(2).complete("instead");
                    behind.get(3).cancel(true);
                    runs.countDown();
                    await(go);
                }
                return each;
            }));
        }
        Stage<String> other = second.thenApply(x -> Thread.currentThread().getName());
        Thread one = new Thread(() -> first.complete(1), "one");
        one.start();
        await(runs);
        second.complete(2);
        is(other.getNow("none"), Thread.currentThread().getName());
        is(behind.get(4).isDone(), false);
        go.countDown();
        one.join();
        is(called, Arrays.asList("0 one", "1 one", "4 one"));
        is(behind.get(2).join() + " " + behind.get(3).isCancelled() + " " + behind.get(4).join(), "instead true 4");
        String report = calling.history().report();
        is(report.split("late", -1).length - 1, 2);
        is(report.split("won", -1).length - 1, 4);
        is(report.contains("taken"), false);
        // None of them counts as running afterwards: what this thread attaches then is no function's.
        Request done = SERVICE.request();
        Stage<Integer> source = done.promise();
        List<Stage<Object>> both = new ArrayList<>();
        both.add(source.thenApply(x -> both.get(1).complete("instead")));
        both.add(source.thenApply(x -> x));
        source.complete(1);
        done.failedFuture(new IllegalStateException());
        is(done.history().spans().get(0).status(), Span.Status.ERROR);
    }

    /** An executor is handed one task for each stage, however many events come between. */
    static void handedOnce() {
        List<Runnable> tasks = new ArrayList<>();
        Request calling = new Service(tasks::add).request();
        Stage<Integer> one = calling.supplyAsync(() -> 1), two = calling.supplyAsync(() -> 2), source = calling.promise();
        calling.promise().complete(null);
        is(tasks.size(), 2);
        List<Stage<Integer>> behind = new ArrayList<>();
        for (int k = 0; k < 150; k++) {
            behind.add(source.thenApplyAsync(x -> x + 1));
        }
        is(tasks.size(), 2);
        source.complete(3);
        is(tasks.size(), 152);
        Stage<Integer> third = source.thenApplyAsync(x -> x);
        calling.promise().complete(null);
        is(tasks.size(), 153);
        for (Runnable task : tasks) {
            task.run();
        }
        is(one.join() + two.join() + third.join(), 6);
        for (Stage<Integer> each : behind) {
            is(each.join(), 4);
        }
        String report = calling.history().report();
        is(report.contains("settled") || report.contains("taken"), false);
    }

    /** Without Async each function is called once, the lowest stage's first, also those that a function makes ready meanwhile. */
    static void here() {
        for (int round = 0; round < 2; round++) {
            boolean mixed = round == 1;
            Request calling = SERVICE.request(), other = SERVICE.request();
            Stage<Integer> ready = calling.promise(), second = calling.promise(), third = other.promise();
            List<Integer> called = new ArrayList<>();
            List<Stage<Integer>> functions = new ArrayList<>();
            if (mixed) {
                functions.add(second.thenApplyAsync(x -> x));
            }
            for (int k = 0; k < 300; k++) {
                int each = k;
                Stage<Integer> behind = k % 3 == 0 ? ready : k % 3 == 1 ? second : functions.get(k / 2);
                functions.add(behind.thenApply(x -> {
                    called.add(each);
                    if (each == 30) {
                        second.complete(2);
                        third.complete(3);
                    }
                    return x + 1;
                }));
            }
            Stage<Integer> outer = third.thenCombine(ready, Integer::sum);
            ready.complete(1);
            is(outer.join(), 4);
            for (Stage<Integer> each : functions) {
                each.join();
            }
            is(called.size(), 300);
            is(new HashSet<>(called).size(), 300);
            is(called.indexOf(3) < called.indexOf(6) && called.indexOf(6) < called.indexOf(27), true);
            String said = calling.history().toString();
            is(said.contains("too late") || said.contains("too early"), false);
        }
    }

    /** A thread calls the functions that it has made ready itself, and none for another thread. */
    static void elsewhere() throws Exception {
        Request calling = SERVICE.request();
        Stage<Integer> one = calling.promise(), two = calling.promise();
        CountDownLatch runs = new CountDownLatch(1), go = new CountDownLatch(1);
        Stage<String> slowFunction = one.thenApply(x -> {
            runs.countDown();
            try {
                is(go.await(20, TimeUnit.SECONDS), true);
            } catch (InterruptedException interrupted) {
                throw new AssertionError(interrupted);
            }
            return Thread.currentThread().getName();
        });
        Stage<String> own = two.thenApply(x -> Thread.currentThread().getName());
        Stage<String> behind = one.thenApply(x -> Thread.currentThread().getName());
        Stage<String> last = own.thenApply(x -> x + Thread.currentThread().getName());
        Thread thread = new Thread(() -> one.complete(1), "first");
        thread.start();
        runs.await();
        two.complete(2);
        is(last.getNow(""), "mainmain");
        is(behind.isDone(), false);
        go.countDown();
        thread.join();
        is(slowFunction.join() + behind.join(), "firstfirst");
    }

    /** A thread that waits in a pool of one doesn't hold up what it waits for where that is called here. */
    static void waitsWhileRunning() throws Exception {
        ExecutorService one = Executors.newFixedThreadPool(1);
        Request calling = new Service(one).request("one");
        Stage<String> inner = calling.promise();
        Stage<String> outer = calling.supplyAsync(() -> inner.thenApply(x -> x + "!").join());
        inner.complete("in");
        is(outer.get(20, TimeUnit.SECONDS), "in!");
        one.shutdown();
    }

    /** Where the JVM has them: each waits in join, and one claims. */
    static void virtualThreads() throws Exception {
        ExecutorService each;
        try {
            each = (ExecutorService) Executors.class.getMethod("newVirtualThreadPerTaskExecutor").invoke(null);
        } catch (NoSuchMethodException older) {
            return;
        }
        Service service = new Service(each);
        Request calling = service.request("virtual");
        Stage<Integer> ready = calling.promise();
        List<Stage<Integer>> waits = new ArrayList<>();
        for (int k = 0; k < 500; k++) {
            int own = k;
            waits.add(calling.supplyAsync(() -> ready.join() + own));
        }
        ready.complete(1);
        for (int k = 0; k < 500; k++) {
            is(waits.get(k).get(20, TimeUnit.SECONDS), 1 + k);
        }
        each.shutdown();
    }

    /** From the 62nd on they are one caller. */
    static void manyThreads() throws Exception {
        Request calling = SERVICE.request();
        List<Stage<Integer>> functions = new ArrayList<>();
        for (int k = 0; k < 100; k++) {
            Thread thread = new Thread(() -> functions.add(calling.completedFuture(1).thenApply(x -> x + 1)));
            thread.start();
            thread.join();
        }
        for (Stage<Integer> each : functions) {
            is(each.join(), 2);
        }
        is(calling.history().toString().contains("some thread attaches"), true);
        Set<Integer> numbers = Arrays.stream(calling.history().words()).mapToObj(Words::caller).collect(Collectors.toCollection(TreeSet::new));
        is(numbers, IntStream.range(Request.FIRST_THREAD, 64).boxed().collect(Collectors.toSet()));
    }

    static void refusedTasks() {
        ExecutorService none = Executors.newFixedThreadPool(1);
        none.shutdown();
        Request calling = new Service(none).request("none");
        thrown(RejectedExecutionException.class, () -> calling.supplyAsync(() -> 1));
        Stage<Integer> promise = calling.promise();
        Stage<Integer> behind = promise.thenApplyAsync(x -> x + 1);
        promise.complete(1);
        is(thrown(CompletionException.class, behind::join).getCause() instanceof RejectedExecutionException, true);
    }

    /** An executor that throws, whatever that is, at once or later, ends the stages alone that were handed to it. */
    static void executorErrors() throws Exception {
        Request calling = SERVICE.request();
        Executor broken = act -> {
            throw new Checks.Broken();
        };
        ExecutorService ended = Executors.newFixedThreadPool(1);
        ended.shutdown();
        Stage<Integer> ready = calling.promise(), given = calling.promise();
        Stage<Integer> refused = ready.thenApplyAsync(x -> x, broken), composed = ready.thenComposeAsync(x -> ready, broken);
        Stage<Integer> called = ready.thenApplyAsync(x -> x + 1), saved = refused.exceptionally(error -> 5), here = ready.thenApply(x -> x + 2);
        ready.complete(1);
        is(here.join() + called.get(20, TimeUnit.SECONDS) + saved.get(20, TimeUnit.SECONDS), 10);
        for (Stage<Integer> each : Arrays.asList(refused, composed)) {
            is(thrown(ExecutionException.class, () -> each.get(20, TimeUnit.SECONDS)).getCause() instanceof Checks.Broken, true);
        }
        thrown(Checks.Broken.class, () -> calling.supplyAsync(() -> 1, broken));
        thrown(Checks.Broken.class, () -> given.completeAsync(() -> 1, broken));
        is(given.complete(2), true);
        is(new Service(broken).request().promise().completeOnTimeout(3, 1, TimeUnit.MILLISECONDS).get(20, TimeUnit.SECONDS), 3);
        Stage<Integer> late = calling.supplyAsync(() -> 1, calling.delayedExecutor(20, TimeUnit.MILLISECONDS, ended));
        Stage<Integer> behind = ready.thenApplyAsync(x -> x, calling.delayedExecutor(20, TimeUnit.MILLISECONDS, ended));
        for (Stage<Integer> each : Arrays.asList(late, behind)) {
            is(thrown(ExecutionException.class, () -> each.get(20, TimeUnit.SECONDS)).getCause() instanceof RejectedExecutionException, true);
        }
        CountDownLatch runs = new CountDownLatch(1), go = new CountDownLatch(1);
        ExecutorService ends = Executors.newFixedThreadPool(1);
        Stage<Integer> running = calling.supplyAsync(() -> {
            runs.countDown();
            await(go);
            return 1;
        }, ends);
        Stage<Integer> tooLate = running.thenApplyAsync(x -> x, ends), instead = tooLate.exceptionally(error -> 6);
        await(runs);
        ends.shutdown();
        go.countDown();
        is(running.get(20, TimeUnit.SECONDS) + instead.get(20, TimeUnit.SECONDS), 7);
    }

    /** A function's Error ends its stage, as any exception does, and nothing else. */
    static void errors() throws Exception {
        Request calling = SERVICE.request();
        Stage<Integer> ready = calling.promise(), failing = calling.promise(), given = calling.promise();
        CompletableFuture<Integer> own = new CompletableFuture<>();
        List<CompletableFuture<?>> functions = new ArrayList<>(Arrays.asList(calling.supplyAsync(() -> breaks()), calling.runAsync(() -> breaks()),
                ready.thenApply(x -> breaks()), ready.thenApplyAsync(x -> breaks()), ready.thenAccept(x -> breaks()), ready.thenRun(() -> breaks()),
                ready.thenCombine(ready, (x, y) -> breaks()), ready.thenAcceptBoth(ready, (x, y) -> breaks()),
                ready.runAfterBoth(ready, () -> breaks()),
                ready.applyToEither(ready, x -> breaks()), ready.acceptEither(ready, x -> breaks()), ready.runAfterEither(ready, () -> breaks()),
                ready.thenCompose(x -> breaks()), ready.thenComposeAsync(x -> breaks()), ready.handle((x, e) -> breaks()),
                ready.whenComplete((x, e) -> breaks()), failing.exceptionally(e -> breaks()), failing.exceptionallyCompose(e -> breaks()),
                given.completeAsync(() -> breaks()), own.thenCombine(ready, (x, y) -> breaks())));
        Stage<Integer> told = failing.whenComplete((x, e) -> breaks()), after = ready.thenApply(x -> x + 1), behind = failing.handle((x, e) -> 3);
        IllegalStateException failure = new IllegalStateException();
        own.complete(1);
        ready.complete(1);
        failing.completeExceptionally(failure);
        for (CompletableFuture<?> each : functions) {
            is(thrown(ExecutionException.class, () -> each.get(20, TimeUnit.SECONDS)).getCause() instanceof Checks.Broken, true);
        }
        is(thrown(ExecutionException.class, () -> told.get(20, TimeUnit.SECONDS)).getCause(), failure);
        is(failure.getSuppressed()[0] instanceof Checks.Broken, true);
        is(after.join() + behind.join(), 5);
        List<String> called = new ArrayList<>();
        calling.completedFuture(1).completeAsync(() -> called.add("of a settled stage") ? 2 : 3, Runnable::run);
        is(called.isEmpty(), true);
        // An action that throws what it was told suppresses nothing: no exception is its own cause.
        IllegalStateException thrownAgain = new IllegalStateException();
        Stage<Integer> source = calling.promise(), again = source.whenComplete((x, e) -> Request.<RuntimeException>rethrow(e));
        source.completeExceptionally(thrownAgain);
        is(thrown(ExecutionException.class, () -> again.get(20, TimeUnit.SECONDS)).getCause(), thrownAgain);
        is(thrownAgain.getSuppressed().length, 0);
        CompletionStage<Integer> refusing = refusing(new Checks.Broken());
        Stage<Integer> composed = ready.thenCompose(x -> refusing), next = composed.handle((x, e) -> 4);
        is(thrown(ExecutionException.class, () -> composed.get(20, TimeUnit.SECONDS)).getCause() instanceof Checks.Broken, true);
        is(next.join(), 4);
        thrown(Checks.Broken.class, () -> calling.adopt(refusing));
    }
}
