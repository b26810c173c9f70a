package cf.service;

import static cf.service.Checks.is;

import cf.service.Checks.Broken;
import java.util.ArrayList;
import java.util.Arrays;
import java.util.List;
import java.util.concurrent.CancellationException;
import java.util.concurrent.CompletableFuture;
import java.util.concurrent.ExecutionException;
import java.util.concurrent.TimeUnit;
import java.util.concurrent.TimeoutException;
import java.util.concurrent.atomic.AtomicInteger;

/** Whoever waits is woken and time passes in all orders in which threads take a request's lock: see {@link Led}. */
final class WaitsTest {
    private static final Service SERVICE = Checks.INLINE;

    private WaitsTest() {}

    /** In a process of its own, since only there a search leads. */
    static void searched() throws Exception {
        String told = HostileTest.child("cf.service.WaitsTest", "all", "-Dcf.search=true", "-Xmx64m", "-XX:+UseSerialGC", "-XX:TieredStopAtLevel=1");
        is(told.endsWith("\nsearched\n\nstatus 0") ? "searched" : told, "searched");
        if (Boolean.getBoolean("test.times")) {
            System.out.print(told.replaceAll("(?s)\nsearched.*", "\n"));
        }
    }

    public static void main(String[] args) throws Exception {
        try {
            search("a wait", WaitsTest::waiting);
            search("a wait behind a function", WaitsTest::waitingBehind);
            search("a wait with a limit", WaitsTest::limitedWait);
            search("an interrupt", WaitsTest::interrupted);
            search("observers", WaitsTest::observers);
            search("a relay", WaitsTest::relay);
            search("a relay that is let go", WaitsTest::relayLetGo);
            search("a limit of what ends", WaitsTest::limitOfWhatEnds);
            search("a limit and an end", WaitsTest::limitAndEnd);
            for (int fails = -1; fails < 2; fails++) {
                int which = fails;
                search("two limits, where start " + which + " fails", led -> limits(led, which));
                search("a limit meanwhile, where start " + which + " fails", led -> limitMeanwhile(led, which));
            }
            search("a limit without a thread", WaitsTest::limitWithoutThread);
            search("a close", WaitsTest::closed);
            System.out.println("searched");
        } catch (Throwable thrown) {
            thrown.printStackTrace(System.out);
            System.exit(1);
        }
        System.exit(0);
    }

    private static void search(String what, Led.World world) throws Exception {
        if (!what.matches(System.getProperty("test.worlds", ".*"))) {
            return;
        }
        long began = System.nanoTime();
        try {
            int orders = Led.orders(world);
            System.out.printf("           %d orders of %s, in %d ms%n", orders, what, (System.nanoTime() - began) / 1_000_000);
        } catch (AssertionError failed) {
            throw new AssertionError(what, failed);
        }
    }

    private static String end(CompletableFuture<?> future) throws Exception {
        try {
            return "" + future.get();
        } catch (CancellationException cancelled) {
            return "cancelled";
        } catch (ExecutionException failed) {
            return failed.getCause() instanceof TimeoutException ? "timed out" : "failed";
        }
    }

    /** Who settles a stage is told so, nobody else is, and who waits is told the end. */
    private static void waiting(Led led) {
        Stage<Integer> stage = SERVICE.request().promise();
        List<Object> told = new ArrayList<>();
        led.plays(() -> told.add(stage.complete(1) ? "1" : "late"));
        led.plays(() -> told.add(stage.cancel(true) ? "cancelled" : "late"));
        led.plays(() -> told.add(end(stage)));
        led.atEnd(() -> {
            is(told.remove("late"), true);
            is(told, Arrays.asList(end(stage), end(stage)));
        });
    }

    /** Who waits behind a function is woken, which is called once; so are Java's own futures. */
    private static void waitingBehind(Led led) {
        Stage<Integer> stage = SERVICE.request().promise();
        AtomicInteger calls = new AtomicInteger();
        Stage<Integer> behind = stage.handle((value, error) -> calls.incrementAndGet());
        CompletableFuture<Void> javas = CompletableFuture.allOf(stage);
        led.plays(() -> is(stage.complete(1), true));
        led.plays(() -> is(behind.join(), 1));
        led.plays(() -> is(stage.isDone() ? stage.getNow(null) : 1, 1));
        led.atEnd(() -> {
            is(calls.get(), 1);
            is(javas.isDone(), true);
        });
    }

    /** A wait for so long gives the end, or that the time is over; and the end is there afterwards. */
    private static void limitedWait(Led led) {
        Stage<Integer> stage = SERVICE.request().promise();
        led.plays(() -> {
            try {
                is(stage.get(0, TimeUnit.NANOSECONDS), 1);
            } catch (TimeoutException over) {
                is(stage.join(), 1);
            }
        });
        led.plays(() -> is(stage.isDone() ? stage.getNow(null) : 1, 1));
        led.plays(() -> is(stage.complete(1), true));
    }

    /** Who is interrupted while he waits is told so, or the end, and nobody else is. */
    private static void interrupted(Led led) {
        Stage<Integer> stage = SERVICE.request().promise();
        Led.Player waits = led.plays(() -> {
            try {
                is(stage.get(), 1);
            } catch (InterruptedException told) {
                is(Thread.currentThread().isInterrupted(), false);
                is(stage.join(), 1);
            }
        });
        led.plays(() -> {
            Waits.awaitTurn();
            waits.interrupt();
        });
        led.plays(() -> is(stage.complete(1), true));
    }

    /** Each that observes a stage acts once, whatever another one throws. */
    private static void observers(Led led) {
        Stage<Integer> stage = SERVICE.request().promise();
        AtomicInteger acts = new AtomicInteger();
        stage.observe(acts::incrementAndGet);
        led.plays(() -> breaks(() -> stage.observe(() -> {
            acts.incrementAndGet();
            throw new Broken();
        })));
        led.plays(() -> stage.observe(acts::incrementAndGet));
        led.plays(() -> breaks(() -> stage.complete(1)));
        led.atEnd(() -> is(acts.get(), 3));
    }

    private static void breaks(Runnable act) {
        try {
            act.run();
        } catch (Broken broken) {
            is(broken.getMessage(), "broken");
        }
    }

    /** A relay ends as what it stands for, however that ends meanwhile. */
    private static void relay(Led led) {
        Stage<Integer> stage = SERVICE.request().promise();
        led.plays(() -> is(SERVICE.request().adopt(stage).join(), 1));
        led.plays(() -> is(stage.complete(1), true));
        led.atEnd(() -> is(hangs(stage), false));
    }

    /** A relay that nobody needs any more is let go, and nothing is left hanging, whoever comes first. */
    private static void relayLetGo(Led led) {
        Stage<Integer> stage = SERVICE.request().promise(), own = SERVICE.request().promise();
        Stage<Integer> either = own.applyToEither(stage, x -> x);
        led.plays(() -> is(stage.complete(1), true));
        led.plays(() -> is(own.complete(2), true));
        led.atEnd(() -> {
            is(either.join() == 1 || either.join() == 2, true);
            is(hangs(stage), false);
        });
    }

    private static boolean hangs(Stage<?> stage) {
        return stage.extras != null && stage.extras.outsideLinks != null && stage.extras.outsideLinks.takeAll() != null;
    }

    /** Where a stage ends as it gets a limit, no alarm is left for it. */
    private static void limitOfWhatEnds(Led led) {
        Stage<Integer> stage = SERVICE.request().promise();
        led.plays(() -> stage.orTimeout(10, TimeUnit.NANOSECONDS));
        led.plays(() -> stage.complete(1));
        led.atEnd(() -> is(led.alarms(), 0));
    }

    /** That of another stage comes all the same. */
    private static void limitAndEnd(Led led) {
        Request request = SERVICE.request();
        Stage<Integer> one = request.promise(), two = request.promise();
        led.plays(() -> one.orTimeout(10, TimeUnit.NANOSECONDS));
        led.plays(() -> two.orTimeout(20, TimeUnit.NANOSECONDS));
        led.plays(() -> one.complete(1));
        led.atEnd(() -> {
            is(led.alarms(), 1);
            drain(led);
            is(end(one), "1");
            is(two.isDone(), true);
            is(end(two), "timed out");
        });
    }

    /** Of two limits each comes, whichever is set first. Where a thread can't be started, they come once the next one is asked for. */
    private static void limits(Led led, int fails) {
        Request request = SERVICE.request();
        Stage<Integer> one = request.promise(), two = request.promise();
        led.failsToStart(fails);
        led.plays(() -> limit(one, 20));
        led.plays(() -> limit(two, 10));
        bothComeAtEnd(led, request, one, two, 1);
    }

    /** So they do where one is set while the other one comes. */
    private static void limitMeanwhile(Led led, int fails) {
        Request request = SERVICE.request();
        Stage<Integer> one = request.promise(), two = request.promise();
        limit(one, 10);
        led.failsToStart(fails);
        led.plays(() -> limit(two, fails < 0 ? 5 : 20));
        led.plays(() -> clock(led));
        bothComeAtEnd(led, request, one, two, 2);
    }

    /** Where an earlier limit's thread can't be started, the alarm of a later one has both come. */
    private static void limitWithoutThread(Led led) {
        Request request = SERVICE.request();
        Stage<Integer> one = request.promise(), two = request.promise();
        limit(one, 20);
        led.failsToStart(0);
        limit(two, 10);
        led.atEnd(() -> {
            drain(led);
            is(led.hasFailed() && one.isDone() && two.isDone(), true);
        });
    }

    /** By so many alarms at most. */
    private static void bothComeAtEnd(Led led, Request request, Stage<?> one, Stage<?> two, int alarms) {
        led.atEnd(() -> {
            led.failsToStart(-1);
            is(led.alarms() <= alarms, true);
            drain(led);
            if (!one.isDone() || !two.isDone()) {
                is(led.hasFailed(), true);
                limit(request.promise(), 30);
                drain(led);
            }
            is(one.isDone() && two.isDone(), true);
            is(end(one) + ", " + end(two), "timed out, timed out");
        });
    }

    private static void limit(Stage<?> stage, int nanos) {
        try {
            stage.orTimeout(nanos, TimeUnit.NANOSECONDS);
        } catch (OutOfMemoryError none) {
            is(none.getMessage(), "unable to create native thread");
        }
    }

    private static boolean clock(Led led) throws Exception {
        try {
            return led.ticks();
        } catch (ExecutionException thrown) {
            is(thrown.getCause().getMessage(), "unable to create native thread");
            return true;
        }
    }

    private static void drain(Led led) throws Exception {
        for (int ticks = 0; clock(led); ticks++) {
            is(ticks < 20, true);
        }
    }

    /** A request that is closed while it has limits keeps them, and its core goes back once. */
    private static void closed(Led led) {
        Request request = SERVICE.request();
        Stage<Integer> one = request.promise(), two = request.promise();
        led.plays(() -> one.orTimeout(10, TimeUnit.NANOSECONDS));
        led.plays(request::close);
        led.plays(() -> two.complete(2));
        led.atEnd(() -> {
            drain(led);
            is(one.isDone(), true);
            is(end(one) + ", " + end(two), "timed out, 2");
        });
    }
}
