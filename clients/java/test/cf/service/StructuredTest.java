package cf.service;

import static cf.service.Checks.is;
import static cf.service.Checks.thrown;

import java.time.Duration;
import java.util.ArrayList;
import java.util.Arrays;
import java.util.Collection;
import java.util.Collections;
import java.util.List;
import java.util.concurrent.Callable;
import java.util.concurrent.CompletionException;
import java.util.concurrent.CountDownLatch;
import java.util.concurrent.Executors;
import java.util.concurrent.TimeoutException;
import java.util.concurrent.atomic.AtomicInteger;
import java.util.function.Supplier;

/** The examples of JEP 505, Structured Concurrency, over scopes. Threads are interrupted, as they are there. */
final class StructuredTest {
    private static final Service SERVICE = new Service(Executors.newCachedThreadPool(task -> {
        Thread thread = new Thread(task);
        thread.setDaemon(true);
        return thread;
    })).withInterrupts();

    private StructuredTest() {}

    /** What a thread that waits for long sees. */
    private static final class Sleeper implements Supplier<String> {
        final CountDownLatch begun = new CountDownLatch(1);
        volatile boolean isInterrupted;

        @Override
        public String get() {
            begun.countDown();
            try {
                Thread.sleep(60_000);
            } catch (InterruptedException interrupted) {
                isInterrupted = true;
            }
            return "slept";
        }
    }

    private static <T> Supplier<T> unchecked(Callable<T> task) {
        return () -> {
            try {
                return task.call();
            } catch (Exception error) {
                Request.<RuntimeException>rethrow(error);
                throw new AssertionError(error);
            }
        };
    }

    @SuppressWarnings("unchecked")
    private static <T> Stage<T>[] fork(Scope scope, Collection<Callable<T>> tasks) {
        return tasks.stream().map(task -> scope.supplyAsync(unchecked(task))).toArray(Stage[]::new);
    }

    private static String response(Supplier<String> findUser, Supplier<Integer> fetchOrder) throws InterruptedException {
        try (Request request = SERVICE.request("handle"); Scope scope = request.scope()) {
            Stage<String> user = scope.supplyAsync(findUser);
            Stage<Integer> order = scope.supplyAsync(fetchOrder);
            scope.join(); // join subtasks, propagating exceptions
            return user.join() + order.join();
        }
    }

    /** handle: both subtasks succeed, or the other is cancelled, its thread interrupted, and the exception propagated. */
    static void handles() throws Exception {
        is(response(() -> "Ada ", () -> 17), "Ada 17");
        Sleeper user = new Sleeper();
        CompletionException failed = thrown(CompletionException.class, () -> response(user, () -> {
            Checks.await(user.begun);
            throw new IllegalStateException("no order");
        }));
        is(failed.getCause().getMessage() + user.isInterrupted, "no ordertrue");
        // handle's own thread is interrupted: both subtasks are
        Sleeper one = new Sleeper();
        Thread handler = new Thread(() -> thrown(InterruptedException.class, () -> response(one, () -> 1)));
        handler.start();
        Checks.await(one.begun);
        handler.interrupt();
        handler.join();
        is(one.isInterrupted, true);
    }

    private static <T> List<T> runConcurrently(Collection<Callable<T>> tasks, Duration timeout) {
        try (Request request = SERVICE.request("all"); Scope scope = request.scope(timeout)) {
            return scope.endsWith(scope.all(fork(scope, tasks))).join();
        }
    }

    /** runConcurrently, by allSuccessfulOrThrow, also with a timeout. */
    static void invokesAll() throws Exception {
        is(runConcurrently(Arrays.asList(() -> 1, () -> 2, () -> 3), Duration.ofMinutes(1)), Arrays.asList(1, 2, 3));
        Sleeper slow = new Sleeper();
        CompletionException failed = thrown(CompletionException.class, () -> runConcurrently(Arrays.asList(slow::get, () -> {
            Checks.await(slow.begun);
            throw new java.io.IOException("away");
        }), Duration.ofMinutes(1)));
        is(failed.getCause().getMessage() + slow.isInterrupted, "awaytrue");
        Sleeper late = new Sleeper();
        try (Request request = SERVICE.request("timeout"); Scope scope = request.scope(Duration.ofMillis(50))) {
            scope.supplyAsync(late);
            is(thrown(CompletionException.class, scope::join).getCause().getClass(), TimeoutException.class);
        }
        is(late.begun.getCount() == 0 && !late.isInterrupted, false);
    }

    private static <T> T race(Collection<Callable<T>> tasks) {
        try (Request request = SERVICE.request("race"); Scope scope = request.scope()) {
            return scope.endsWith(scope.first(fork(scope, tasks))).join();
        }
    }

    /** race, by anySuccessfulResultOrThrow: the losers are interrupted before the scope is left. */
    static void races() throws Exception {
        Sleeper loser = new Sleeper();
        is(race(Arrays.asList(loser::get, () -> {
            Checks.await(loser.begun);
            return "won";
        }, () -> {
            throw new java.io.IOException("away");
        })), "won");
        is(loser.isInterrupted, true);
        CompletionException failed = thrown(CompletionException.class, () -> race(Arrays.asList(() -> {
            throw new java.io.IOException("away");
        }, () -> {
            throw new IllegalStateException("broken");
        })));
        is(failed.getCause().getSuppressed().length, 1);
    }

    private static <T> List<T> allSuccessful(List<Callable<T>> tasks) throws InterruptedException {
        List<T> results = Collections.synchronizedList(new ArrayList<>());
        try (Request request = SERVICE.request("collecting"); Scope scope = request.scope()) {
            for (Stage<T> each : fork(scope, tasks)) {
                each.handle((value, error) -> error == null && results.add(value));
            }
            scope.join();
            return results;
        }
    }

    /** allSuccessful, by a joiner that collects what succeeds; and one that cancels after two failures, by allUntil. */
    static void collects() throws Exception {
        List<Integer> some = allSuccessful(Arrays.asList(() -> 1, () -> {
            throw new java.io.IOException("away");
        }, () -> 3));
        Collections.sort(some);
        is(some, Arrays.asList(1, 3));

        AtomicInteger failures = new AtomicInteger();
        Sleeper third = new Sleeper();
        CountDownLatch attached = new CountDownLatch(1);
        try (Request request = SERVICE.request("until"); Scope scope = request.scope()) {
            Supplier<String> fails = () -> {
                Checks.await(attached);
                Checks.await(third.begun);
                throw new IllegalStateException("broken");
            };
            List<Stage<String>> stages = Arrays.asList(scope.supplyAsync(fails), scope.supplyAsync(fails), scope.supplyAsync(third));
            for (Stage<String> each : stages) {
                each.whenComplete((value, error) -> {
                    if (error != null && failures.incrementAndGet() == 2) {
                        scope.end();
                    }
                }).exceptionally(error -> null);
            }
            attached.countDown();
            scope.join();
        }
        is(failures.get() >= 2 && third.isInterrupted, true);
    }

    /** serve: a scope that takes tasks without end is left by an exception, and all that runs is cancelled. */
    static void serves() throws Exception {
        List<Sleeper> connections = new ArrayList<>();
        Request request = SERVICE.request("serve");
        thrown(java.net.SocketException.class, () -> {
            try (Scope scope = request.scope()) {
                for (int k = 0; k < 3; k++) {
                    Sleeper connection = new Sleeper();
                    scope.supplyAsync(connection);
                    connections.add(connection);
                    Checks.await(connection.begun);
                }
                throw new java.net.SocketException("closed");
            }
        });
        is(connections.stream().allMatch(connection -> connection.isInterrupted), true);
    }

    /** A tree of scopes: a subtask opens one of its own, which ends with the one around it. */
    static void nests() throws Exception {
        Sleeper deep = new Sleeper();
        AtomicInteger left = new AtomicInteger();
        try (Request request = SERVICE.request("tree"); Scope scope = request.scope()) {
            Stage<String> node = scope.supplyAsync(() -> {
                try (Scope inner = scope.scope()) {
                    Stage<String> leaf = inner.supplyAsync(deep);
                    return leaf.join();
                } finally {
                    left.incrementAndGet();
                }
            });
            Stage<Void> fails = scope.runAsync(() -> {
                Checks.await(deep.begun);
                throw new IllegalStateException("broken");
            });
            is(thrown(CompletionException.class, scope::join).getCause().getMessage() + node.isCancelled(), "brokentrue");
            is(fails.isCompletedExceptionally(), true);
            thrown(ScopeEndedException.class, () -> scope.runAsync(() -> { })); // fork after the scope is cancelled or joined
        }
        is(deep.isInterrupted + " " + left.get(), "true 1");
    }
}
