package cf.service;

import static cf.service.Checks.is;

import java.util.ArrayList;
import java.util.Arrays;
import java.util.LinkedHashMap;
import java.util.List;
import java.util.Map;
import java.util.concurrent.BlockingQueue;
import java.util.concurrent.Callable;
import java.util.concurrent.CompletableFuture;
import java.util.concurrent.CompletionException;
import java.util.concurrent.CountDownLatch;
import java.util.concurrent.ExecutionException;
import java.util.concurrent.ExecutorService;
import java.util.concurrent.Executors;
import java.util.concurrent.LinkedBlockingQueue;
import java.util.concurrent.TimeUnit;
import java.util.function.Function;

/** What does each call do, and what becomes of functions, behind each kind of end: of a request, of its executor, of the wait of a thread? */
final class EndsTest {
    /** What has come to an end before a call. */
    private enum State {
        OPEN, CLOSED, CANCELLED, SHUT_DOWN, STOPPED, INTERRUPTED
    }

    /**
     * Of each call what it gives, or throws, or its stage ends with, in these states; an empty cell is as the first one. The thread that calls stays
     * interrupted unless the call says that it was.
     */
    private static final String[] TABLE = {
        // call                           | open | closed | all cancelled | executor shut down | stopped (shutdownNow) | thread interrupted
        "supplyAsync                      | 1 | | | RejectedExecutionException | RejectedExecutionException |",
        "runAsync                         | null | | | RejectedExecutionException | RejectedExecutionException |",
        "supplyAsync of a service         | 1 | | | RejectedExecutionException | RejectedExecutionException |",
        "completeAsync                    | 1 | | | RejectedExecutionException | RejectedExecutionException |",
        "delayedExecutor                  | 1 | | | RejectedExecutionException | RejectedExecutionException |",
        "thenApplyAsync, settled          | 2 | | | RejectedExecutionException | RejectedExecutionException |",
        "thenApplyAsync, settled later    | 2 | | CancellationException | RejectedExecutionException | RejectedExecutionException |",
        "thenApply                        | 2 | | | | |",
        "thenCompose                      | 2 | | | | |",
        "allOf                            | null | | | | |",
        "adopt                            | 3 | | | | |",
        "start of a flow                  | 2 | | | | |",
        "complete                         | true | | false | | |",
        "completeExceptionally            | true | | false | | |",
        "cancel                           | true | | | | |",
        "get, settled                     | 1 | | | | |",
        "get, open                        | 5 | | CancellationException | | | InterruptedException",
        "get with a limit, open           | TimeoutException | | CancellationException | | | InterruptedException",
        "get, settled while it waits      | 5 | | | | | InterruptedException",
        "join, settled while it waits     | 5 | | | | |",
        "orTimeout                        | TimeoutException | | CancellationException | | |",
        "completeOnTimeout                | 7 | | CancellationException | | |",
        "a function that runs             | 1 | | CancellationException | | InterruptedException |",
        "a function that is queued        | 1 | | CancellationException | | open |",
        "how many of these are called     | 2 | | 1 | | 1 |",
        "a function that throws           | Broken | | | | |",
        "a context behind that            | - | | | | |",
        "a context behind that, of a pool | - | | | RejectedExecutionException | RejectedExecutionException |",
        "cancelAll                        | true 0 open | | | | |",
        "close                            | [by cf-ends, for which the JVM waits] | | | | |",
    };

    /** The hook is told of a request whose composing stage has no need of its relay: its function gave a stage that was there, or wasn't called. */
    static void toldWithoutRelays() throws Exception {
        BlockingQueue<String> told = new LinkedBlockingQueue<>();
        Service service = new Service(Runnable::run).onEnd(history -> told.add(history.name()));
        for (String name : Arrays.asList("given", "failed", "cancelled")) {
            Request request = service.request(name);
            Stage<Integer> stage = request.promise();
            Stage<Integer> composed = stage.thenCompose(x -> stage);
            is(name.equals("failed") ? stage.completeExceptionally(new IllegalStateException()) : name.equals("given") ? stage.complete(1)
                    : composed.cancel(true) && stage.complete(1), true);
            request.close();
            is(told.poll(60, TimeUnit.SECONDS), name);
        }
        Flow flow = new Flow("begun");
        Flow.Step<Integer> first = flow.promise();
        List<Stage<Integer>> given = new ArrayList<>();
        first.thenCompose(x -> given.get(0));
        Request begun = service.start(flow);
        given.add(begun.stage(first));
        given.get(0).complete(1);
        begun.close();
        is(told.poll(60, TimeUnit.SECONDS), "begun");
        Request request = service.request("elsewhere");
        CompletableFuture<Integer> elsewhere = new CompletableFuture<>();
        Stage<Integer> composed = request.completedFuture(1).thenCompose(x -> elsewhere);
        request.close();
        is(told.poll(20, TimeUnit.MILLISECONDS), null);
        elsewhere.complete(2);
        is(composed.join(), 2);
        is(told.poll(60, TimeUnit.SECONDS), "elsewhere");
    }

    private final ExecutorService pool = Executors.newFixedThreadPool(1);
    private final ThreadLocal<String> context = ThreadLocal.withInitial(() -> "-");
    private final BlockingQueue<String> told = new LinkedBlockingQueue<>();
    private final Service service = new Service(pool).withContexts(() -> this::within).onEnd(history -> {
        Thread own = Thread.currentThread();
        told.add("by " + own.getName() + (own.isDaemon() ? "" : ", for which the JVM waits"));
    });
    private final Request request = service.request();
    private final Stage<Integer> settled = request.completedFuture(1), open = request.promise();
    private final CountDownLatch runs = new CountDownLatch(1), go = new CountDownLatch(1);
    private final List<String> called = new ArrayList<>();
    private Stage<Integer> running, queued;

    private EndsTest() {}

    private void within(Runnable act) {
        context.set("within");
        try {
            act.run();
        } finally {
            context.remove();
        }
    }

    /** A function of the pool's only thread runs, and another one is queued, before that is called. */
    private Callable<Object> busy(Callable<Object> call) {
        running = request.supplyAsync(() -> {
            called.add("running");
            runs.countDown();
            try {
                go.await();
            } catch (InterruptedException interrupted) {
                throw new CompletionException(interrupted);
            }
            return 1;
        });
        queued = request.supplyAsync(() -> called.add("queued") ? 1 : 0);
        Checks.await(runs);
        return call;
    }

    /** The end of a stage, once all that the pool has was called. */
    private Object goesOn(Stage<Integer> stage) throws Exception {
        go.countDown();
        pool.shutdown();
        calmly(() -> is(pool.awaitTermination(20, TimeUnit.SECONDS), true));
        return stage.getNow(-1) < 0 ? "open" : stage.join();
    }

    /** Waits in a thread that may be interrupted, and stays so. */
    private static void calmly(Checks.Test wait) throws Exception {
        boolean was = Thread.interrupted();
        wait.run();
        if (was) {
            Thread.currentThread().interrupt();
        }
    }

    private Object left() {
        return open.isCancelled() + " " + request.history().line().replaceFirst(".* (\\d+ open).*", "$1");
    }

    private Stage<Integer> breaks() {
        return settled.thenApply(x -> Checks.breaks());
    }

    /** What comes first, if anything, is done before the state. */
    private static Map<String, Function<EndsTest, Callable<Object>>> calls() {
        Map<String, Function<EndsTest, Callable<Object>>> calls = new LinkedHashMap<>();
        calls.put("supplyAsync", it -> () -> it.request.supplyAsync(() -> 1).join());
        calls.put("runAsync", it -> () -> it.request.runAsync(() -> { }).join());
        calls.put("supplyAsync of a service", it -> () -> it.service.supplyAsync(() -> 1).join());
        calls.put("completeAsync", it -> () -> it.request.promise().completeAsync(() -> 1).join());
        calls.put("delayedExecutor", it -> () -> it.request.supplyAsync(() -> 1, it.request.delayedExecutor(1, TimeUnit.MICROSECONDS)).join());
        calls.put("thenApplyAsync, settled", it -> () -> it.settled.thenApplyAsync(x -> x + 1).join());
        calls.put("thenApplyAsync, settled later", it -> {
            Stage<Integer> behind = it.open.thenApplyAsync(x -> x + 1);
            return () -> it.open.complete(1) ? behind.join() : behind.join();
        });
        calls.put("thenApply", it -> () -> it.settled.thenApply(x -> x + 1).join());
        calls.put("thenCompose", it -> () -> it.settled.thenCompose(x -> it.request.completedFuture(2)).join());
        calls.put("allOf", it -> () -> it.request.allOf(it.settled, it.request.completedFuture(1)).join());
        calls.put("adopt", it -> () -> it.request.adopt(CompletableFuture.completedFuture(3)).join());
        calls.put("start of a flow", it -> () -> {
            Flow flow = new Flow("flow");
            Flow.Step<Integer> step = flow.<Integer>promise().thenApply(x -> x + 1);
            return it.service.start(flow, 1).stage(step).join();
        });
        calls.put("complete", it -> () -> it.open.complete(1));
        calls.put("completeExceptionally", it -> () -> it.open.completeExceptionally(new Checks.Broken()));
        calls.put("cancel", it -> () -> it.open.cancel(true));
        calls.put("get, settled", it -> () -> it.settled.get());
        calls.put("get, open", it -> () -> {
            if (!Thread.currentThread().isInterrupted()) {
                it.open.complete(5);
            }
            return it.open.get();
        });
        calls.put("get with a limit, open", it -> () -> it.open.get(1, TimeUnit.MILLISECONDS));
        calls.put("get, settled while it waits", it -> () -> {
            Stage<Integer> other = it.request.promise();
            if (!Thread.currentThread().isInterrupted()) {
                new Thread(() -> other.complete(5)).start();
            }
            return other.get();
        });
        calls.put("join, settled while it waits", it -> () -> {
            Stage<Integer> other = it.request.promise();
            new Thread(() -> other.complete(5)).start();
            return other.join();
        });
        calls.put("orTimeout", it -> () -> it.open.orTimeout(1, TimeUnit.MICROSECONDS).join());
        calls.put("completeOnTimeout", it -> () -> it.open.completeOnTimeout(7, 1, TimeUnit.MICROSECONDS).join());
        calls.put("a function that runs", it -> it.busy(() -> it.goesOn(it.running)));
        calls.put("a function that is queued", it -> it.busy(() -> it.goesOn(it.queued)));
        calls.put("how many of these are called", it -> it.busy(() -> it.goesOn(it.settled).equals(1) ? it.called.size() : null));
        calls.put("a function that throws", it -> () -> it.breaks().join());
        calls.put("a context behind that", it -> () -> it.breaks().isCompletedExceptionally() ? it.context.get() : null);
        calls.put("a context behind that, of a pool", it -> () -> {
            it.settled.thenApplyAsync(x -> Checks.breaks()).handle((x, error) -> 0).join();
            return CompletableFuture.supplyAsync(it.context::get, it.pool).join();
        });
        calls.put("cancelAll", it -> () -> {
            it.request.cancelAll();
            return it.left();
        });
        calls.put("close", it -> () -> {
            it.open.cancel(true);
            it.request.close();
            it.request.close();
            calmly(() -> it.service.ends().drain(20));
            return it.told;
        });
        return calls;
    }

    private void enter(State state) {
        switch (state) {
            case CLOSED:
                request.close();
                break;
            case CANCELLED:
                request.cancelAll();
                break;
            case SHUT_DOWN:
                pool.shutdown();
                break;
            case STOPPED:
                pool.shutdownNow();
                break;
            case INTERRUPTED:
                Thread.currentThread().interrupt();
                break;
            default:
        }
    }

    private static String end(Callable<Object> call) {
        try {
            return String.valueOf(call.call());
        } catch (Throwable thrown) {
            Throwable at = thrown;
            while ((at instanceof CompletionException || at instanceof ExecutionException) && at.getCause() != null) {
                at = at.getCause();
            }
            return at.getClass().getSimpleName();
        }
    }

    /** Each call does in each state what the table says, which has all of them. */
    static void byStates() {
        Map<String, Function<EndsTest, Callable<Object>>> calls = calls();
        List<String> names = new ArrayList<>();
        for (String line : TABLE) {
            String[] cells = Arrays.stream(line.split("\\|", -1)).map(String::trim).toArray(String[]::new);
            names.add(cells[0]);
            for (State state : State.values()) {
                String wanted = cells[1 + state.ordinal()].isEmpty() ? cells[1] : cells[1 + state.ordinal()];
                EndsTest it = new EndsTest();
                Callable<Object> call = calls.get(cells[0]).apply(it);
                it.enter(state);
                String found = end(call);
                boolean wasKept = Thread.interrupted(), isKept = state == State.INTERRUPTED && !wanted.equals("InterruptedException");
                it.go.countDown();
                it.pool.shutdown();
                is(cells[0] + ", " + state + ": " + found + (wasKept ? ", interrupted" : ""), cells[0] + ", " + state + ": " + wanted
                        + (isKept ? ", interrupted" : ""));
            }
        }
        is(names, new ArrayList<>(calls.keySet()));
    }
}
