package cf.service;

import static cf.service.Checks.foreign;
import static cf.service.Checks.INLINE;
import static cf.service.Checks.is;
import static cf.service.Checks.resident;
import static cf.service.Checks.SERVICE;

import cf.internal.Freed;
import com.sun.management.GarbageCollectionNotificationInfo;
import java.lang.management.GarbageCollectorMXBean;
import java.lang.management.ManagementFactory;
import java.lang.ref.WeakReference;
import java.util.ArrayList;
import java.util.Arrays;
import java.util.List;
import java.util.concurrent.CompletableFuture;
import java.util.concurrent.CompletionStage;
import java.util.concurrent.TimeUnit;
import java.util.concurrent.atomic.AtomicInteger;
import javax.management.NotificationEmitter;
import javax.management.openmbean.CompositeData;

/** What is freed, and when: requests that nobody closes, values and functions of settled stages, what hung on a future that lives long. */
final class FreeingTest {
    private FreeingTest() {}

    /** What lives long keeps nothing of requests that raced with it, however they hung on it. */
    static void longLived() throws Exception {
        CompletableFuture<Object> shutdown = new CompletableFuture<>(), hidden = new CompletableFuture<>();
        Stage<Object> livingStage = SERVICE.request().promise();
        List<CompletionStage<Object>> lived = Arrays.asList(shutdown, livingStage, foreign(hidden));
        List<WeakReference<Object>> mayBeFreed = new ArrayList<>();
        List<Stage<Object>> wait = new ArrayList<>();
        for (CompletionStage<Object> each : lived) {
            for (int k = 0; k < 200; k++) {
                mayBeFreed.add(new WeakReference<>(raced(k % 8, each)));
            }
        }
        is(livingStage.extras.outsideLinks.takeAll() == null, true);
        for (CompletionStage<Object> each : lived) {
            Request keeping = SERVICE.request();
            wait.add(keeping.anyOf(keeping.promise(), keeping.promise(), each));
            wait.add(keeping.promise().applyToEither(each, x -> x));
            wait.add(keeping.completedFuture(1).thenCompose(x -> each));
            wait.add(keeping.adopt(each));
        }
        awaitFreed(mayBeFreed);
        is(shutdown.getNumberOfDependents(), 4);
        shutdown.complete("ends");
        livingStage.complete("ends");
        hidden.complete("ends");
        for (Stage<Object> each : wait) {
            is(each.get(20, TimeUnit.SECONDS), "ends");
        }
    }

    /** Uses it in a request that ends without it: a value of that. */
    private static Object raced(int how, CompletionStage<Object> lived) {
        Request keeping = SERVICE.request();
        Stage<Object> own = keeping.promise();
        Stage<?> end = null;
        switch (how) {
            case 0: own.applyToEither(lived, x -> x); break;
            case 1: keeping.anyOf(own, lived); break;
            case 2: keeping.anyOf(lived, keeping.promise(), own, keeping.promise(), lived); break;
            case 3: end = own.thenCombine(lived, (x, y) -> x); break;
            case 4: end = keeping.allOf(own, lived, lived, own); break;
            case 5: end = own.thenCompose(x -> lived); break;
            case 6: end = keeping.adopt(lived); break;
            default: end = own.thenComposeAsync(x -> lived, Runnable::run);
        }
        Object value = new Object();
        own.complete(value);
        if (end != null) {
            end.cancel(true);
        }
        return value;
    }

    /** Waits until nothing keeps them. */
    private static void awaitFreed(List<WeakReference<Object>> mayBeFreed) throws Exception {
        Checks.until(() -> {
            System.gc();
            mayBeFreed.removeIf(each -> each.get() == null);
            return mayBeFreed.isEmpty();
        });
    }

    /** However many hang on one stage, the next one takes no more for that. */
    static void manyBehindOne() {
        com.sun.management.ThreadMXBean threads = (com.sun.management.ThreadMXBean) ManagementFactory.getThreadMXBean();
        long own = Thread.currentThread().getId();
        Stage<Integer> latch = SERVICE.request().promise(), last = null;
        Request keeping = SERVICE.request().continueInNext();
        long before = threads.getThreadAllocatedBytes(own);
        for (int k = 0; k < 20_000; k++) {
            last = keeping.adopt(latch);
        }
        is(threads.getThreadAllocatedBytes(own) - before < 20_000 * 2000L, true);
        latch.complete(1);
        is(last.join(), 1);
    }

    /** A settled stage, and one that only waits for what its function gave, keep neither the function nor a timer. */
    static void keptBySettled() throws Exception {
        Request keeping = SERVICE.request();
        Stage<Object> settling = keeping.promise(), never = keeping.promise();
        CompletableFuture<Object> foreign = new CompletableFuture<>();
        int timers = Clock.TIMER.getQueue().size();
        List<WeakReference<Object>> mayBeFreed = new ArrayList<>();
        List<Stage<?>> keptStages = new ArrayList<>();
        for (int k = 0; k < 8; k++) {
            Object kept = new Object();
            mayBeFreed.add(new WeakReference<>(kept));
            keptStages.add(k == 0 ? settling.thenApply(x -> kept.hashCode()) : k == 1 ? settling.thenCompose(x -> kept == null ? null : never)
                    : k == 2 ? settling.thenCompose(x -> kept == null ? null : foreign) : k == 3 ? never.thenApply(x -> kept)
                    : k == 4 ? settling.exceptionally(x -> kept) : k == 5 ? settling.thenApplyAsync(x -> kept.hashCode())
                    : k == 6 ? keeping.supplyAsync(kept::hashCode) : never.thenApplyAsync(x -> kept));
            keptStages.get(k).orTimeout(1, TimeUnit.HOURS);
        }
        is(Clock.TIMER.getQueue().size() <= timers + 8, true);
        settling.complete(1);
        keptStages.get(3).cancel(true);
        keptStages.get(7).completeExceptionally(new IllegalStateException());
        for (int k : new int[] {0, 4, 5, 6}) {
            keptStages.get(k).get(20, TimeUnit.SECONDS);
        }
        awaitFreed(mayBeFreed);
        keptStages.get(1).cancel(true);
        keptStages.get(2).complete(null);
        Checks.until(() -> Clock.TIMER.getQueue().size() <= timers);
    }

    /** Requests that nobody closed are freed, in the heap and outside. */
    static void unreachable() throws Exception {
        int count = Integer.getInteger("test.requests", 30_000);
        WeakReference<Object> mayBeFreed = new WeakReference<>(dropped());
        awaitFreed(new ArrayList<>(Arrays.asList(mayBeFreed)));
        requests(count / 10);
        long before = resident();
        requests(count);
        System.gc();
        Thread.sleep(50);
        long after = resident();
        if (Boolean.getBoolean("test.times") || after - before >= 100) {
            System.out.println("           resident before and after " + count + " requests: " + before + " and " + after + " MB");
        }
        is(after - before < 100, true);
    }

    /** A request whose stages are all settled gives its core to the next one, closed or not. One that goes on has one again, and keeps that. */
    static void over() throws Exception {
        for (int k = 0; k < 5; k++) {
            System.gc();
            Thread.sleep(20);
            Freed.freeAll();
        }
        int live = Machine.liveCores(), count = 300;
        List<Request> over = new ArrayList<>();
        for (int k = 0; k < count; k++) {
            Request one = INLINE.request("over");
            is(one.completedFuture(k).thenApply(x -> x + 1).join(), k + 1);
            over.add(one);
        }
        is(Machine.liveCores() <= live + 10, true);
        for (int k = 0; k < count; k++) {
            is(over.get(k).history().events(), 5);
            is(over.get(k).completedFuture(k).thenApply(x -> x + 2).join(), k + 2);
            is(over.get(k).history().report().endsWith("stage 1 value 1\nstage 2 value 2\nstage 3 value 3\n"), true);
        }
        is(Machine.liveCores() > live + count / 2, true);
        over.forEach(Request::close);
        is(Machine.liveCores() < live + count / 2, true);
        // One that is in use again isn't over, and its limits are kept.
        Request used = INLINE.request("used");
        is(used.completedFuture(1).join(), 1);
        Stage<Integer> limited = used.<Integer>promise().completeOnTimeout(2, 20, TimeUnit.MILLISECONDS);
        INLINE.request("next").completedFuture(1);
        is(limited.get(20, TimeUnit.SECONDS), 2);
        // So it is with a flow, once a stage of it was asked for: that asks the machine.
        Flow flow = new Flow("over");
        Flow.Step<Object> last = flow.promise().thenApply(x -> x);
        live = Machine.liveCores();
        for (int k = 0; k < count; k++) {
            over.set(k, INLINE.start(flow, k));
            is(over.get(k).stage(last).join(), k);
        }
        is(Machine.liveCores() <= live + 10, true);
        for (int k = 0; k < count; k++) {
            over.set(k, INLINE.start(flow, k));
        }
        is(Machine.liveCores() > live + count / 2, true);
        for (int k = 0; k < count; k++) {
            is(over.get(k).stage(last).join(), k);
        }
        is(Machine.liveCores() < live + count / 2, true);
    }

    private static Object dropped() {
        Request unclosed = SERVICE.request();
        Object object = new Object();
        unclosed.completedFuture(object).thenApply(x -> x).orTimeout(1, TimeUnit.HOURS);
        unclosed.<Object>promise().thenApply(x -> object);
        return object;
    }

    private static void requests(int count) {
        for (int k = 0; k < count; k++) {
            Request unclosed = SERVICE.request("dropped");
            Stage<Integer> first = unclosed.promise(), last = first.thenApply(x -> x + 1);
            unclosed.promise(); // So it is never over.
            if (k % 3 != 0) {
                first.complete(k);
                is(last.join(), k + 1);
            }
            if (k % 5 == 0) {
                unclosed.close();
            }
        }
    }

    /** However many requests are open, opening one more asks the JVM for no collection. */
    static void noCollection() throws Exception {
        AtomicInteger asked = new AtomicInteger(), told = new AtomicInteger();
        List<GarbageCollectorMXBean> collectors = ManagementFactory.getGarbageCollectorMXBeans();
        long before = collections(collectors);
        for (GarbageCollectorMXBean each : collectors) {
            ((NotificationEmitter) each).addNotificationListener((event, none) -> {
                if (GarbageCollectionNotificationInfo.from((CompositeData) event.getUserData()).getGcCause().equals("System.gc()")) {
                    asked.incrementAndGet();
                }
                told.incrementAndGet();
            }, null, null);
        }
        List<Request> open = new ArrayList<>();
        for (int k = 0; k < 9000; k++) {
            open.add(INLINE.request("open"));
        }
        is(Machine.liveCores() >= 9000, true);
        int own = collectors.size();
        System.gc();
        Checks.until(() -> asked.get() > 0 && told.get() >= collections(collectors) - before);
        is(asked.get() >= 1 && asked.get() <= own, true);
        is(open.get(0).completedFuture(1).join(), 1);
        for (Request each : open) {
            each.close();
        }
        is(Machine.liveCores() < 9000, true);
    }

    private static long collections(List<GarbageCollectorMXBean> collectors) {
        return collectors.stream().mapToLong(GarbageCollectorMXBean::getCollectionCount).sum();
    }

    /** Where the heap has much room, what requests that nobody closes have outside of it is bounded all the same. */
    static void bounded() throws Exception {
        is(HostileTest.child("cf.service.HostileTest", "bounded", "-Xmx128m", "-Xmn96m", "-XX:+UseSerialGC").contains("survived"), true);
    }

    /** In a process of its own. */
    static void unclosed() {
        int most = 0;
        for (int k = 0; k < 60_000; k++) {
            Request unclosed = INLINE.request("unclosed");
            unclosed.promise(); // So it is never over.
            unclosed.completedFuture(k);
            most = Math.max(most, Machine.liveCores());
        }
        System.out.println("at most " + most + " were alive");
        is(most < 30_000, true);
    }

    /** Who opens a request frees what others have left, also of other plans. */
    static void otherPlans() throws Exception {
        Flow flow = new Flow("left");
        flow.promise();
        List<Request> open = new ArrayList<>();
        for (int k = 0; k < 100; k++) {
            open.add(INLINE.request("open")); // So no core is at hand.
        }
        int live = Machine.liveCores();
        for (int k = 0; k < 200; k++) {
            INLINE.start(flow);
        }
        Checks.until(() -> {
            System.gc();
            open.add(INLINE.request("open"));
            return Machine.liveCores() <= live + 100;
        });
        open.forEach(Request::close);
    }
}
