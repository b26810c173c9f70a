package cf.service;

import static cf.service.Checks.INLINE;
import static cf.service.Checks.is;
import static cf.service.Checks.SERVICE;
import static cf.service.Checks.thrown;

import cf.service.Checks.Broken;
import java.time.Duration;
import java.util.ArrayList;
import java.util.Arrays;
import java.util.Collections;
import java.util.List;
import java.util.Random;
import java.util.concurrent.CancellationException;
import java.util.concurrent.CompletableFuture;
import java.util.concurrent.CompletionException;
import java.util.concurrent.CompletionStage;
import java.util.concurrent.CountDownLatch;
import java.util.concurrent.ExecutorService;
import java.util.concurrent.Executors;
import java.util.concurrent.TimeUnit;
import java.util.concurrent.TimeoutException;
import java.util.concurrent.atomic.AtomicInteger;
import java.util.concurrent.atomic.AtomicReference;
import java.util.function.BiConsumer;
import java.util.function.BiFunction;

/** Scopes: what is of one, and by what it ends. */
final class ScopesTest {
    private ScopesTest() {}

    private static String states(Stage<?>... stages) {
        StringBuilder text = new StringBuilder();
        for (Stage<?> stage : stages) {
            text.append(stage.isCancelled() ? 'c' : stage.isCompletedExceptionally() ? 'f' : stage.isDone() ? 'd' : '-');
        }
        return text.toString();
    }

    /** What is of a scope, and isn't; a scope ends once, and takes nothing any more. */
    static void ends() throws Exception {
        Request request = INLINE.request("scopes");
        Stage<Integer> outside = request.promise(), other = INLINE.request().promise();
        Scope scope = request.scope().named("the scope"), inner = scope.scope();
        Stage<Integer> own = scope.promise(), behind = own.thenApply(value -> value + 1), within = inner.promise();
        Stage<Integer> handled = own.handle((value, error) -> 1), both = own.thenCombine(other, Integer::sum);
        Stage<Integer> composed = own.thenCompose(value -> request.promise()), relay = scope.adopt(other);
        Stage<Void> all = scope.allOf(outside, own, within, relay);
        Stage<Integer> first = scope.first(outside, own), notOwn = outside.thenCombine(own, Integer::sum);
        Stage<Integer> finished = scope.completedFuture(1), behindFinished = finished.thenCompose(value -> outside);
        is(states(outside, own, within, behindFinished), "----");
        is(scope.hasEnded(), false);
        scope.end();
        is(states(own, behind, within, handled, both, composed, relay, all, first, behindFinished), "cfccffcfcc");
        is(states(outside, other, notOwn, finished), "---d");
        is(Arrays.asList(scope.hasEnded(), inner.hasEnded()), Arrays.asList(true, true));
        int events = request.history().events(), stages = request.history().stages();
        scope.end();
        scope.close();
        Checks.has(thrown(ScopeEndedException.class, scope::promise).getMessage(), "\"the scope\" of \"scopes\"");
        List<Checks.Test> tries = Arrays.asList(() -> scope.supplyAsync(() -> 1), () -> inner.runAsync(() -> { }), () -> own.thenApply(value -> 1),
                () -> own.handle((value, error) -> 1), () -> finished.thenCompose(value -> outside), () -> scope.allOf(outside, outside, outside),
                () -> scope.first(outside), scope::scope, () -> scope.adopt(other), () -> scope.retry(Retry.of(1), () -> 1), own::copy,
                () -> finished.thenCombine(other, Integer::sum), () -> scope.scope(Duration.ofSeconds(1)));
        for (Checks.Test each : tries) {
            thrown(ScopeEndedException.class, each);
        }
        is(Arrays.asList(request.history().events(), request.history().stages()), Arrays.asList(events, stages));
        is(request.allOf(own).handle((none, error) -> 7).join(), 7);
        Checks.has(request.history().toString(), "completes " + scope.stage.number() + " the scope with nil");
        Checks.has(request.history().toString(), "relay cancels " + own.number() + " source");
        Checks.fits(request.history().account());
        is(scope.endsWith(outside), outside);
        thrown(IllegalArgumentException.class, () -> scope.endsWith(other));
    }

    /** Where a scope ends while relays are made for a stage, the stage isn't attached, and futures elsewhere keep nothing. */
    static void endsMeanwhile() {
        List<BiFunction<Scope, CompletionStage<?>[], Stage<?>>> ways = Arrays.asList(Scope::allOf, (scope, of) -> scope.all(of),
                (scope, of) -> scope.<Object>promise().runAfterBoth(of[1], () -> { }));
        for (BiFunction<Scope, CompletionStage<?>[], Stage<?>> way : ways) {
            Scope scope = INLINE.request().scope();
            CompletableFuture<Object> future = new CompletableFuture<>(), ending = new CompletableFuture<Object>() {
                @Override
                public CompletableFuture<Object> whenComplete(BiConsumer<? super Object, ? super Throwable> action) {
                    scope.end();
                    return super.whenComplete(action);
                }
            };
            CompletionStage<?>[] of = {future, ending, scope.promise()};
            thrown(ScopeEndedException.class, () -> way.apply(scope, of));
            is(future.getNumberOfDependents(), 0);
        }
    }

    /** A scope ends with a stage, also one that is settled; the losers of a race are cancelled in the same call. */
    static void endsWith() {
        Request request = INLINE.request();
        Scope scope = request.scope();
        List<Integer> asked = new ArrayList<>();
        Stage<Integer> slow = scope.promise(), fast = scope.promise();
        Stage<Void> notAsked = slow.thenAccept(asked::add);
        Stage<Integer> quote = scope.endsWith(scope.first(slow, fast).exceptionally(error -> -1));
        Stage<String> sent = request.<Integer>first(quote).thenApply(cents -> cents + " cents");
        fast.complete(49);
        is(request.history().spans().get(0).status(), Span.Status.OK);
        is(quote.join() + " " + sent.join() + " " + states(slow, notAsked) + scope.hasEnded() + asked, "49 49 cents cftrue[]");
        Scope ended = request.scope();
        Stage<Integer> left = ended.promise();
        is(ended.endsWith(quote).join() + states(left), "49c");

        Scope failing = request.scope();
        Stage<Integer> one = failing.promise(), two = failing.promise();
        failing.endsWith(request.first(one));
        failing.endsWith(request.all(two));
        one.completeExceptionally(new Broken());
        is(states(one, two), "fc");
    }

    /** A limit, also of a whole request; whoever waits is told. */
    static void limits() throws Exception {
        Request request = SERVICE.request();
        try (Scope scope = request.scope(Duration.ofMillis(20))) {
            Stage<Integer> never = scope.promise();
            Throwable error = thrown(CompletionException.class, scope::join).getCause();
            is(error.getClass() + states(never), TimeoutException.class + "c");
        }
        Checks.has(request.history().toString(), "clock times out 0 scope");
        try (Scope scope = request.scope(Duration.ofDays(100_000_000))) {
            is(scope.supplyAsync(() -> 1).join() + " " + scope.hasEnded(), "1 false");
        }
        try (Scope scope = request.scope(Duration.ZERO)) {
            Checks.until(scope::hasEnded);
            thrown(ScopeEndedException.class, scope::promise);
        }

        Request limited = SERVICE.request("limited", Duration.ofMillis(20));
        Stage<Integer> never = limited.promise(), behind = limited.supplyAsync(() -> 1).thenCompose(one -> never);
        thrown(CancellationException.class, never::join);
        Checks.until(behind::isDone);
        thrown(ScopeEndedException.class, limited::promise);

        AtomicReference<History> told = new AtomicReference<>();
        Request early = SERVICE.onEnd(told::set).request("early", Duration.ofDays(1));
        Stage<Integer> made = early.supplyAsync(() -> 1).thenCompose(value -> early.completedFuture(2));
        Scope open = early.scope();
        early.cancelAll();
        is(open.hasEnded() + states(early.promise()), "true-");
        early.cancelAll();
        early.close();
        Checks.until(() -> told.get() != null);
        Checks.has(told.get().toString(), "completes 0 limit with nil");
        thrown(ScopeEndedException.class, early::promise);
        is(made.isDone(), true);
    }

    /** A scope waits for its stages, and throws what nobody takes. */
    static void joins() throws Exception {
        Request request = SERVICE.request();
        Broken one = new Broken(), two = new Broken();
        try (Scope scope = request.scope()) {
            scope.join(); // there is none
            CountDownLatch begin = new CountDownLatch(1);
            AtomicInteger ended = new AtomicInteger();
            scope.runAsync(() -> {
                Checks.await(begin);
                scope.scope().runAsync(ended::incrementAndGet);
                ended.incrementAndGet();
            });
            begin.countDown();
            scope.join();
            is(ended.get() + " " + scope.hasEnded(), "2 false");
            Stage<Integer> failed = scope.failedFuture(one);
            is(scope.first(failed, scope.completedFuture(3)).join(), 3);
            Stage<Integer> asked = scope.failedFuture(one);
            thrown(CompletionException.class, asked::join);
            Stage<Integer> given = scope.failedFuture(one);
            is(scope.completedFuture(1).thenCompose(value -> given).exceptionally(error -> 5).join(), 5);
            Stage<Integer> waited = scope.promise();
            Thread waiter = new Thread(() -> thrown(CompletionException.class, waited::join));
            waiter.start();
            Checks.until(() -> waiter.getState() == Thread.State.WAITING);
            waited.completeExceptionally(one);
            scope.<Integer>promise().cancel(false);
            scope.join();
            is(scope.hasEnded(), false);
            Stage<Integer> never = scope.promise(), last = scope.promise();
            scope.failedFuture(two);
            scope.failedFuture(one);
            CompletionException thrown = thrown(CompletionException.class, scope::join);
            is(thrown.getCause() == two && thrown.getSuppressed()[0] == one, true);
            is(states(never, last) + thrown.getSuppressed().length, "cc1");
        }
        Scope late = request.scope();
        Stage<Integer> open = late.promise(), fails = late.promise();
        Thread joiner = new Thread(() -> is(thrown(CompletionException.class, late::join).getCause(), one));
        AtomicReference<Throwable> said = new AtomicReference<>();
        joiner.setUncaughtExceptionHandler((thread, error) -> said.set(error));
        joiner.start();
        Checks.until(() -> joiner.getState() == Thread.State.WAITING);
        fails.completeExceptionally(one); // while it waits for another one, too
        joiner.join();
        is(said.get() + states(open), "nullc");

        Scope outer = request.scope(), inner = outer.scope(), ended = outer.scope();
        inner.promise();
        ended.end();
        ended.join();
        Stage<Integer> meant = outer.promise();
        ended.endsWith(meant);
        outer.end();
        thrown(CancellationException.class, inner::join);
        outer.join();
        Scope interrupted = request.scope();
        interrupted.promise();
        Thread.currentThread().interrupt();
        thrown(InterruptedException.class, interrupted::join);
        is(interrupted.hasEnded(), false);
        Scope with = request.scope();
        Stage<Integer> answer = with.endsWith(with.promise());
        with.promise();
        answer.complete(1);
        with.join();
    }

    /** A request that is closed and opened again knows its scopes. */
    static void closed() {
        Request request = INLINE.request();
        Scope scope = request.scope(), inner = scope.scope();
        Stage<Integer> last = request.promise(), one = scope.promise(), two = inner.promise(), three = scope.promise();
        Stage<Integer> composed = one.thenCompose(value -> two);
        scope.endsWith(last);
        request.close();
        one.complete(1);
        request.close();
        last.complete(1);
        is(states(two, three, composed), "ccf");
    }

    /** A full request refuses what is of a scope, also where other stages go to a further one. */
    static void full() {
        Request request = INLINE.request("full").continueInNext();
        Scope scope = request.scope();
        Stage<Integer> last = scope.promise();
        for (int k = 2; k < 4096; k++) {
            request.promise();
        }
        thrown(RequestFullException.class, scope::promise);
        thrown(RequestFullException.class, () -> last.thenApply(value -> value));
        thrown(RequestFullException.class, () -> scope.first(last));
        thrown(RequestFullException.class, scope::scope);
        Stage<Integer> further = request.promise();
        is(further.request(), request.next());
        thrown(RequestFullException.class, () -> scope.allOf(last, last, last));
        Scope next = request.scope();
        Stage<Integer> there = next.promise();
        is(next.request(), request.next());
        next.end();
        scope.end();
        is(states(last, there, further), "cc-");
    }

    /** A function may ask whether to stop. */
    static void isStopping() throws Exception {
        is(Stage.isStopping(), false);
        Request request = SERVICE.request();
        CountDownLatch begun = new CountDownLatch(1), asked = new CountDownLatch(1);
        List<Boolean> seen = new ArrayList<>();
        Scope scope = request.scope();
        Stage<Void> loop = scope.runAsync(() -> {
            seen.add(Stage.isStopping());
            INLINE.request().completedFuture(1).thenRun(() -> seen.add(Stage.isStopping()));
            begun.countDown();
            Checks.await(asked);
            seen.add(Stage.isStopping());
            INLINE.request().completedFuture(1).thenRun(() -> seen.add(Stage.isStopping()));
            seen.add(Stage.isStopping());
            begun.countDown();
        });
        Checks.await(begun);
        scope.end();
        asked.countDown();
        Checks.until(() -> request.history().toString().contains("too late"));
        is(seen + states(loop), "[false, false, true, false, true]c");
        Flow flow = new Flow("flow");
        Flow.Step<Boolean> step = flow.supplyAsync(() -> {
            FLOW_BEGUN.countDown();
            Checks.await(FLOW_GOES_ON);
            STOPS.add(Stage.isStopping());
            return true;
        });
        Request planned = SERVICE.start(flow);
        Checks.await(FLOW_BEGUN);
        planned.cancelAll();
        FLOW_GOES_ON.countDown();
        Checks.until(() -> !STOPS.isEmpty());
        is(STOPS + states(planned.stage(step)), "[true]c");
    }

    private static final CountDownLatch FLOW_BEGUN = new CountDownLatch(1), FLOW_GOES_ON = new CountDownLatch(1);
    private static final List<Boolean> STOPS = Collections.synchronizedList(new ArrayList<>());

    /** Where the service interrupts, a function is interrupted once its stage is settled otherwise, and close waits for it. */
    static void interrupts() throws Exception {
        ExecutorService one = Executors.newSingleThreadExecutor();
        Service service = new Service(one).withInterrupts();
        Request request = service.request();
        CountDownLatch begun = new CountDownLatch(1);
        AtomicReference<String> seen = new AtomicReference<>("");
        Scope scope = request.scope();
        scope.runAsync(() -> {
            begun.countDown();
            try {
                Thread.sleep(60_000);
            } catch (InterruptedException interrupted) {
                seen.set("interrupted " + Stage.isStopping());
            }
        });
        Checks.await(begun);
        scope.close();
        is(seen.get(), "interrupted true");
        is(request.supplyAsync(() -> Thread.currentThread().isInterrupted()).join(), false);

        // A function that another one calls meanwhile isn't interrupted; that one is, once it goes on.
        Stage<Integer> promise = request.promise();
        CountDownLatch within = new CountDownLatch(1), stopped = new CountDownLatch(1);
        List<Boolean> told = new ArrayList<>();
        promise.thenRun(() -> {
            within.countDown();
            Checks.await(stopped);
            told.add(Thread.currentThread().isInterrupted());
        });
        Scope around = request.scope();
        Stage<Void> outer = around.runAsync(() -> {
            promise.complete(1);
            told.add(Thread.interrupted());
        });
        Checks.await(within);
        outer.cancel(true);
        stopped.countDown();
        around.close();
        is(told, Arrays.asList(false, true));
        // One that ends its own scope doesn't wait for itself, and its thread is clean afterwards.
        Request inline = new Service(Runnable::run).withInterrupts().request();
        Scope own = inline.scope();
        Stage<Void> itself = own.runAsync(() -> {
            own.close();
            told.add(Thread.currentThread().isInterrupted());
        });
        thrown(CancellationException.class, itself::join);
        is(told.get(2) + " " + Thread.currentThread().isInterrupted(), "true false");
        one.shutdown();
        is(one.awaitTermination(60, TimeUnit.SECONDS), true);
    }

    /** A thread that has gone on to another function is never interrupted. */
    static void interruptsInThreads() throws Exception {
        ExecutorService pool = Executors.newFixedThreadPool(2);
        Service service = new Service(pool).withInterrupts();
        AtomicInteger wrong = new AtomicInteger();
        for (int k = 0; k < 2_000; k++) {
            Request request = service.request();
            Stage<Integer> first = request.supplyAsync(() -> 1);
            Stage<Boolean> second = request.supplyAsync(() -> Thread.currentThread().isInterrupted());
            first.cancel(true);
            wrong.addAndGet(second.join() ? 1 : 0);
        }
        is(wrong.get(), 0);
        pool.shutdown();
    }

    /** Eight threads attach, settle and end by chance: nothing of a scope that has ended is open, and no function of it begins any more. */
    static void inThreads() throws Exception {
        for (int seed = 0; seed < 60; seed++) {
            Request request = SERVICE.request("random " + seed);
            List<Scope> scopes = Collections.synchronizedList(new ArrayList<>());
            List<Stage<Integer>> stages = Collections.synchronizedList(new ArrayList<>());
            scopes.add(request.scope());
            stages.add(request.promise());
            AtomicInteger begunLate = new AtomicInteger();
            AtomicReference<Throwable> failure = new AtomicReference<>();
            CountDownLatch begin = new CountDownLatch(1);
            List<Thread> threads = new ArrayList<>();
            for (int n = 0; n < 8; n++) {
                Random random = new Random(8L * seed + n);
                threads.add(new Thread(() -> {
                    Checks.await(begin);
                    try {
                        for (int k = 0; k < 30; k++) {
                            act(random, scopes, stages, begunLate);
                        }
                    } catch (Throwable error) {
                        failure.set(error);
                    }
                }));
            }
            threads.forEach(Thread::start);
            begin.countDown();
            for (Thread thread : threads) {
                thread.join();
            }
            if (failure.get() != null) {
                throw new AssertionError("seed " + seed, failure.get());
            }
            for (Scope scope : scopes) {
                synchronized (request.lock()) {
                    is(!scope.hasEnded() || request.openStages(scope).isEmpty(), true);
                }
                scope.end();
            }
            for (Stage<Integer> stage : stages) {
                is(stage.scope() == null || stage.isDone(), true);
            }
            is(begunLate.get(), 0);
            request.cancelAll();
            History history = request.history();
            SpanReader calls = new SpanReader(history);
            for (Stage<Integer> stage : stages) {
                boolean isOfScope = stage.scope() != null;
                is(!isOfScope || calls.claim(stage.number()) < history.settled(stage.scope().stage.number()), true);
            }
            Checks.fits(history.account());
        }
    }

    private static void act(Random random, List<Scope> scopes, List<Stage<Integer>> stages, AtomicInteger begunLate) {
        Scope scope = scopes.get(random.nextInt(scopes.size()));
        Stage<Integer> stage = stages.get(random.nextInt(stages.size()));
        try {
            switch (random.nextInt(12)) {
                case 0:
                    scopes.add(scope.scope());
                    break;
                case 1:
                    stages.add(scope.promise());
                    break;
                case 2:
                    stages.add(scope.supplyAsync(() -> 1));
                    break;
                case 3:
                    stages.add(stage.thenApply(value -> value + 1));
                    break;
                case 4:
                    stages.add(stage.handleAsync((value, error) -> 2));
                    break;
                case 5:
                    stages.add(stage.thenCompose(value -> scope.promise()));
                    break;
                case 6:
                    stages.add(scope.first(stage, stages.get(0)));
                    break;
                case 7:
                    stages.add(scope.allOf(stage, stages.get(0), stage).thenApply(none -> 3));
                    break;
                case 8:
                    if (random.nextInt(4) == 0) {
                        scope.end();
                        if (random.nextBoolean()) { // A thread that has seen the end sees no function begin behind it.
                            thrown(ScopeEndedException.class, () -> scope.supplyAsync(begunLate::incrementAndGet));
                        }
                    }
                    break;
                case 9:
                    scope.endsWith(stage);
                    break;
                case 10:
                    stage.complete(4);
                    break;
                default:
                    stage.completeExceptionally(new Broken());
            }
        } catch (ScopeEndedException ended) {
            is(scope.hasEnded() || stage.scope() != null && stage.scope().hasEnded(), true);
        }
    }
}
