package cf.service;

import static cf.service.Checks.await;
import static cf.service.Checks.breaks;
import static cf.service.Checks.is;
import static cf.service.Checks.SERVICE;
import static cf.service.Checks.thrown;
import static cf.service.Checks.timeOut;

import cf.internal.Words;
import cf.testing.Orders;
import java.util.ArrayList;
import java.util.Arrays;
import java.util.Collections;
import java.util.HashSet;
import java.util.List;
import java.util.Set;
import java.util.concurrent.CompletableFuture;
import java.util.concurrent.CompletionException;
import java.util.concurrent.CompletionStage;
import java.util.concurrent.CountDownLatch;
import java.util.concurrent.ExecutionException;
import java.util.concurrent.TimeUnit;
import java.util.concurrent.TimeoutException;

/** Limits of time: what a stage that timed out ends with, and its relays, what is told of that, and who comes late. */
final class TimeoutsTest {
    private TimeoutsTest() {}

    /** What hangs on one timeout, or on a delay, and takes long, delays no other one. */
    static void timeouts() throws Exception {
        Stage<Integer> longest = SERVICE.request().promise();
        longest.orTimeout(Long.MAX_VALUE, TimeUnit.DAYS).completeOnTimeout(1, Long.MAX_VALUE, TimeUnit.NANOSECONDS);
        thrown(TimeoutException.class, () -> longest.get(20, TimeUnit.MILLISECONDS));
        Stage<Integer> soon = longest.request().<Integer>promise().orTimeout(1, TimeUnit.MILLISECONDS);
        is(thrown(ExecutionException.class, () -> soon.get(20, TimeUnit.SECONDS)).getCause() instanceof TimeoutException, true);
        Request timed = SERVICE.request();
        CountDownLatch runs = new CountDownLatch(3), go = new CountDownLatch(1);
        Runnable slow = () -> {
            runs.countDown();
            await(go);
        };
        Stage<Integer> firstTimed = timed.promise(), secondTimed = timed.promise();
        Stage<Integer> two = secondTimed.whenComplete((x, e) -> slow.run()), one = firstTimed.exceptionally(error -> {
            slow.run();
            return 1;
        });
        firstTimed.orTimeout(1, TimeUnit.MILLISECONDS);
        secondTimed.completeOnTimeout(2, 1, TimeUnit.MILLISECONDS);
        timed.delayedExecutor(1, TimeUnit.MILLISECONDS, Runnable::run).execute(slow);
        is(runs.await(20, TimeUnit.SECONDS), true);
        timed.promise().orTimeout(1, TimeUnit.MILLISECONDS).whenComplete((x, e) -> breaks());
        CompletableFuture<Throwable> uncaught = new CompletableFuture<>();
        Thread.UncaughtExceptionHandler usual = Thread.getDefaultUncaughtExceptionHandler();
        Thread.setDefaultUncaughtExceptionHandler((thread, error) -> uncaught.complete(error));
        timed.delayedExecutor(1, TimeUnit.MILLISECONDS, Runnable::run).execute(() -> breaks());
        is(uncaught.get(20, TimeUnit.SECONDS) instanceof Checks.Broken, true);
        Thread.setDefaultUncaughtExceptionHandler(usual);
        Stage<Integer> last = timed.<Integer>promise().completeOnTimeout(9, 1, TimeUnit.HOURS);
        for (int k = 0; k < 5; k++) {
            is(timed.<Integer>promise().completeOnTimeout(k, 1, TimeUnit.MILLISECONDS).get(20, TimeUnit.SECONDS), k);
            is(timed.supplyAsync(() -> 1, timed.delayedExecutor(1, TimeUnit.MILLISECONDS)).get(20, TimeUnit.SECONDS), 1);
        }
        is(one.isDone() || two.isDone() || last.isDone(), false);
        go.countDown();
        is(one.get(20, TimeUnit.SECONDS) + two.get(20, TimeUnit.SECONDS), 3);
        last.cancel(true);
    }

    /** A stage that timed out has Java's exception, and the history says why. */
    static void timedOut() throws Exception {
        Request timed = SERVICE.request("slow");
        Stage<Integer> asked = timed.<Integer>promise().named("asked"), behindTimed = asked.thenApply(x -> x).named("behind");
        List<Throwable> seen = Collections.synchronizedList(new ArrayList<>());
        Stage<Integer> saved = asked.handle((x, error) -> seen.add(error) ? 1 : 0);
        Stage<Integer> last = behindTimed.handle((x, error) -> seen.add(error) ? 2 : 0);
        asked.orTimeout(1, TimeUnit.MILLISECONDS);
        Throwable why = thrown(ExecutionException.class, () -> asked.get(20, TimeUnit.SECONDS)).getCause();
        is(why.getClass() == TimeoutException.class && why.getMessage() == null, true);
        is(saved.get(20, TimeUnit.SECONDS) + last.get(20, TimeUnit.SECONDS), 3);
        is(seen.get(0) == why && seen.get(1) instanceof CompletionException && seen.get(1).getCause() == why, true);
        is(thrown(CompletionException.class, asked::join).getCause() == why, true);
        is(thrown(CompletionException.class, behindTimed::join) == seen.get(1), true);
        is(asked.isCompletedExceptionally() && !asked.isCancelled(), true);
        is(asked.exceptionNow() == why && behindTimed.exceptionNow() == why, true);
        is(asked.toString().endsWith(": 0 asked: Completed exceptionally: java.util.concurrent.TimeoutException]"), true);
        History history = timed.history();
        String said = history.toString();
        is(said.contains("clock times out 0 asked\n") && said.contains("0 asked ends: timed out\n"), true);
        is(said.contains("1 behind ends: timed out, passed on\n"), true);
        is(said.contains("claims 2 handle and calls it with timed out\n"), true);
        is(history.line().contains("; 2 failed: 0 asked by timed out; 0 open"), true);
        is(history.script().startsWith("{\"cf\":3,\"room\":4,") && history.script().contains("[\"failAs\",0,\"timeout\"]"), true);
        String report = history.report();
        is(report.contains("\ngranted got fault timeout raw\n"), true);
        is(report.contains("\ngranted got fault timeout wrapped\n"), true);
        is(report.contains("\nstage 0 fault timeout raw\nstage 1 fault timeout wrapped\n"), true);
        is(history.account().contains("\"errors\":[]"), true);
        long word = 0;
        for (long each : history.words()) {
            word = Words.kind(each) == Words.FAIL_AS ? each : word;
        }
        is(word, 8L << 56 | 1L << 48);
        is(Words.kindName(word), "failAs");
        // Each has its own; who comes too late is told so.
        Request otherTimed = SERVICE.request();
        Stage<Integer> firstTimed = otherTimed.promise(), secondTimed = otherTimed.promise(), done = otherTimed.completedFuture(1);
        is(otherTimed.history().script().startsWith("{\"cf\":2,"), true);
        is(timeOut(firstTimed) && timeOut(secondTimed), true);
        is(timeOut(done) || timeOut(firstTimed) || firstTimed.complete(1) || firstTimed.cancel(true), false);
        is(firstTimed.exceptionNow() == secondTimed.exceptionNow() || firstTimed.exceptionNow() == why, false);
        is(otherTimed.history().toString().contains("clock times out 2 source: too late\n"), true);
        is(otherTimed.history().report().endsWith("\ntrue\ntrue\nfalse\nfalse\nfalse\nfalse\n"
                + "stage 0 fault timeout raw\nstage 1 fault timeout raw\nstage 2 value 0\n"), true);
        // A flow's stage, and what is behind a minimal one.
        Flow flow = new Flow("flow");
        Flow.Step<Integer> given = flow.promise(), next = given.thenApply(x -> x);
        Request begun = SERVICE.start(flow);
        begun.stage(given).orTimeout(1, TimeUnit.MILLISECONDS);
        Throwable cause = thrown(ExecutionException.class, () -> begun.stage(next).get(20, TimeUnit.SECONDS)).getCause();
        is(cause instanceof TimeoutException && begun.stage(given).exceptionNow() == cause, true);
        CompletionStage<Integer> minimal = begun.stage(given).minimalCompletionStage();
        is(thrown(CompletionException.class, () -> minimal.toCompletableFuture().join()).getCause() == cause, true);
    }

    /** A stage has the exception of that source which it took, where several timed out, also of a flow, and by a limit of a closed request. */
    static void whose() throws Exception {
        Request timed = SERVICE.request();
        Stage<Integer> one = timed.promise(), two = timed.promise();
        List<Stage<Integer>> ones = Arrays.asList(one.thenApply(x -> x), one.thenCombine(two, Integer::sum)),
                twos = Arrays.asList(two.thenApply(x -> x), two.thenCombine(one, Integer::sum), one.applyToEither(two, x -> x));
        List<Throwable> seen = new ArrayList<>();
        one.whenComplete((x, error) -> seen.add(error));
        two.orTimeout(20, TimeUnit.MILLISECONDS);
        timed.close();
        thrown(ExecutionException.class, () -> two.get(20, TimeUnit.SECONDS));
        timeOut(one);
        is(seen, Collections.singletonList(one.exceptionNow()));
        is(one.exceptionNow() == two.exceptionNow(), false);
        for (Stage<Integer> each : ones) {
            is(each.exceptionNow() == one.exceptionNow(), true);
            is(end(each), "fault timeout wrapped");
        }
        for (Stage<Integer> each : twos) {
            is(each.exceptionNow() == two.exceptionNow(), true);
            is(end(each), "fault timeout wrapped");
        }
        Flow flow = new Flow("flow");
        Flow.Step<Integer> slow = flow.promise(), other = flow.promise(), last = slow.thenCombine(other, Integer::sum);
        Request begun = SERVICE.start(flow);
        Stage<Integer> asked = begun.stage(last);
        timeOut(begun.stage(other));
        timeOut(begun.stage(slow));
        is(asked.exceptionNow() == begun.stage(slow).exceptionNow(), true);
        is(end(asked), "fault timeout wrapped");
    }

    private static String end(Stage<?> timedStage) {
        return Checks.ends(timedStage.request().history())[timedStage.number()];
    }

    /** A relay of a stage that timed out ends so, too, where nobody is told another exception for it. */
    static void timedOutElsewhere() throws Exception {
        for (int round = 0; round < 4; round++) {
            boolean wrapped = round % 2 == 1, before = round / 2 == 1;
            Request otherTimed = SERVICE.request();
            Stage<Integer> slow = otherTimed.promise(), of = wrapped ? slow.thenApply(x -> x) : slow;
            if (before) {
                timeOut(slow);
            }
            Request three = SERVICE.request();
            List<Stage<?>> behindTimed = Arrays.asList(SERVICE.request().<Integer>promise().applyToEither(of, x -> x),
                    SERVICE.request().completedFuture(1).thenCombine(of, Integer::sum),
                    SERVICE.request().completedFuture(1).thenCompose(x -> of),
                    SERVICE.request().<Integer>failedFuture(new IllegalStateException()).exceptionallyCompose(error -> of),
                    three.anyOf(three.promise(), of, three.promise()));
            Stage<Integer> adopted = SERVICE.request().adopt(of);
            if (!before) {
                timeOut(slow);
            }
            for (Stage<?> each : behindTimed) {
                is(thrown(CompletionException.class, each::join).getCause().getClass(), TimeoutException.class);
                is(end(each), "fault timeout wrapped");
                is(each.request().history().toString().contains("relay times out "), true);
            }
            Throwable told = ((Faults.Fault) of.outcome).error();
            is(adopted.handle((x, error) -> wrapped ? error == told : error.getClass() == TimeoutException.class).join(), true);
            is(end(adopted), wrapped ? "fault thrown 0 raw" : "fault timeout raw");
            furtherTimedOut(wrapped);
            linkedTimedOut(wrapped);
        }
        // What is somebody's own exception stays that.
        Request timed = SERVICE.request();
        TimeoutException why = new TimeoutException("why");
        CompletableFuture<Integer> foreign = new CompletableFuture<>();
        Stage<Integer> otherTimed = SERVICE.request().failedFuture(why);
        List<Stage<Integer>> made = Arrays.asList(timed.adopt(foreign), timed.adopt(otherTimed), timed.failedFuture(why));
        foreign.completeExceptionally(why);
        for (Stage<Integer> each : made) {
            is(each.exceptionNow() == why, true);
            is(end(each), "fault thrown 0 raw");
        }
        is(timed.history().script().startsWith("{\"cf\":2,"), true);
    }

    /** Functions in a further request are called with what they would be called with in the first one. */
    private static void furtherTimedOut(boolean wrapped) {
        Request timed = SERVICE.request().continueInNext();
        Stage<Integer> slow = timed.promise(), of = wrapped ? slow.thenApply(x -> x) : slow;
        while (timed.next() == null) {
            timed.promise();
        }
        List<Throwable> seen = new ArrayList<>();
        List<Stage<?>> behindTimed = Arrays.asList(of.handle((x, error) -> seen.add(error)),
                of.whenComplete((x, error) -> seen.add(error)), of.exceptionally(error -> seen.add(error) ? 1 : 0),
                of.exceptionallyCompose(error -> seen.add(error) ? of : null));
        Stage<Integer> passed = of.thenApply(x -> x);
        timeOut(slow);
        is(seen.size(), behindTimed.size());
        for (Throwable each : seen) {
            is(each.getClass(), wrapped ? CompletionException.class : TimeoutException.class);
        }
        is(end(passed), "fault timeout wrapped");
        is(timed.next().history().toString().split("relay times out ", -1).length - 1, wrapped ? 2 : 6);
    }

    /** What a function gave stands behind its stage in the request, and is settled later, or by then. */
    private static void linkedTimedOut(boolean wrapped) {
        Request timed = SERVICE.request();
        Stage<Integer> firstTimed = timed.promise(), secondTimed = timed.promise();
        List<Stage<Integer>> given = new ArrayList<>();
        Stage<Integer> later = firstTimed.thenCompose(x -> given.get(0)), then = secondTimed.thenCompose(x -> given.get(0));
        Stage<Integer> slow = timed.promise();
        given.add(wrapped ? slow.thenApply(x -> x) : slow);
        firstTimed.complete(1);
        timeOut(slow);
        secondTimed.complete(2);
        for (Stage<Integer> each : Arrays.asList(later, then)) {
            is(each.exceptionNow() == slow.exceptionNow(), true);
            is(end(each), "fault timeout wrapped");
        }
        History history = timed.history();
        is(history.toString().split("relay times out ", -1).length - 1, 2);
        // Its lines alone say whose the words are: they are told as they are.
        String account = history.account();
        for (long word : history.words()) {
            is(account.contains("\"" + word + "\""), true);
        }
    }

    /**
     * Stages are settled in the order in which their time is over: not in that in which it was asked for, nor in that in which threads come to
     * act. Here nobody can act until all are due.
     */
    static void inOrder() throws Exception {
        int many = 8;
        for (int round = 0; round < 20; round++) {
            Request timed = SERVICE.request();
            List<Stage<Integer>> all = new ArrayList<>();
            long[] soonest = new long[many], latest = new long[many];
            for (int k = 0; k < many; k++) {
                all.add(timed.promise());
            }
            synchronized (timed.machine) {
                for (int k = 0; k < many; k++) {
                    int at = (5 * k + round) % many;
                    soonest[at] = Clock.moment(2 + 2 * at, TimeUnit.MILLISECONDS);
                    if (at % 2 == 0) {
                        all.get(at).orTimeout(2 + 2 * at, TimeUnit.MILLISECONDS);
                    } else {
                        all.get(at).completeOnTimeout(at, 2 + 2 * at, TimeUnit.MILLISECONDS);
                    }
                    latest[at] = Clock.moment(2 + 2 * at, TimeUnit.MILLISECONDS);
                }
                Thread.sleep(30);
            }
            for (Stage<Integer> each : all) {
                each.handle((x, error) -> 1).get(20, TimeUnit.SECONDS);
            }
            List<Integer> order = new ArrayList<>();
            for (long word : timed.history().words()) {
                if (Words.caller(word) == Request.CLOCK) {
                    order.add(Words.stage(word));
                }
            }
            is(order.size(), many);
            for (int k = 1; k < many; k++) {
                is(soonest[order.get(k - 1)] <= latest[order.get(k)], true);
            }
        }
        // An earlier one that is asked for later comes at its time, also where the first one's stage is settled meanwhile.
        Request timed = SERVICE.request();
        Stage<Integer> far = timed.<Integer>promise().orTimeout(1, TimeUnit.HOURS), near = timed.<Integer>promise().orTimeout(1, TimeUnit.MILLISECONDS);
        thrown(ExecutionException.class, () -> near.get(20, TimeUnit.SECONDS));
        Stage<Integer> next = timed.<Integer>promise().completeOnTimeout(null, 10, TimeUnit.MILLISECONDS);
        far.complete(1);
        is(next.get(20, TimeUnit.SECONDS), null);
        is(far.join(), 1);
        is(timed.<Integer>promise().completeOnTimeout(3, -1, TimeUnit.DAYS).get(20, TimeUnit.SECONDS), 3);
        is(timed.<Integer>promise().orTimeout(Long.MAX_VALUE, TimeUnit.DAYS).isDone(), false);
    }

    /**
     * A function's end and a limit come in every order. Who finishes behind the limit is late, and what he gave is in the history alone; and if
     * the limit is first of all, nothing is called.
     */
    static void late() throws Exception {
        Set<String> seen = new HashSet<>();
        Orders.of(world -> {
            List<String> ran = new ArrayList<>();
            Request timed = world.service().request();
            Stage<String> slow = timed.supplyAsync(() -> {
                ran.add("called");
                return "late";
            }).completeOnTimeout("early", 1, TimeUnit.SECONDS);
            world.settles(slow);
            world.atEnd(() -> {
                String said = timed.history().toString();
                boolean isLate = said.contains(" finishes 0 supply, which gave late: too late\n");
                is(slow.join(), isLate || ran.isEmpty() ? "early" : "late");
                is(said.split("0 supply ends", -1).length, 2);
                return seen.add(slow.join() + " " + ran) || true;
            }, "the first ends it, and the history tells who was late");
        }).seconds(600).whole().check();
        is(seen, new HashSet<>(Arrays.asList("early []", "early [called]", "late [called]")));
        Request timed = SERVICE.request();
        ExecutionException told = thrown(ExecutionException.class, () -> timed.promise().orTimeout(1, TimeUnit.MILLISECONDS).get());
        is(told.getCause() instanceof TimeoutException, true);
    }
}
