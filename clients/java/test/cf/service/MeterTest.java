package cf.service;

import static cf.service.Checks.has;
import static cf.service.Checks.is;

import java.lang.management.ManagementFactory;
import java.lang.ref.WeakReference;
import java.util.ArrayDeque;
import java.util.Arrays;
import java.util.List;
import java.util.Queue;
import java.util.concurrent.CompletableFuture;
import java.util.concurrent.CountDownLatch;
import java.util.stream.Collectors;
import javax.management.MBeanServer;
import javax.management.ObjectName;

/** Which requests are open, why, and what is counted of those that are over. */
final class MeterTest {
    private static final String READY = " has been ready for T", WAITS = " has waited to be settled for T";

    private final Meter meter = new Meter();
    /** What the executor was handed. */
    private final Queue<Runnable> tasks = new ArrayDeque<>();
    private final Service service = new Service(tasks::add).withMeter(meter);

    private MeterTest() {}

    /** The open requests, without their times. */
    private List<String> open() {
        return meter.openRequests().stream().map(each -> each.toString().replaceAll("\\d+\\.\\d s", "T")).collect(Collectors.toList());
    }

    /** The values of a metric, each with its labels. */
    private List<String> values(String name) {
        return Arrays.stream(meter.text().split("\n")).filter(line -> line.matches("cf_memory_" + name + "[{ ].*"))
                .map(line -> line.substring("cf_memory_".length() + name.length()).trim()).collect(Collectors.toList());
    }

    private void awaitEnded(int count) throws InterruptedException {
        while (meter.getEndedRequests() < count) {
            Thread.sleep(1);
        }
        is(meter.getEndedRequests(), (long) count);
    }

    /** It is told while a stage is open, and counted once it was closed, too. */
    static void listed() throws Exception {
        MeterTest it = new MeterTest();
        Request one = it.service.request("one\n"), two = it.service.withDescribe(Describe.NOTHING).request("two");
        is(it.open(), Arrays.asList());
        Stage<Integer> first = one.<Integer>promise().named("a\nb"), second = two.promise();
        one.close();
        is(it.open(), Arrays.asList("one\\n, open for T: 0 a\\nb" + WAITS, "two, open for T: 0 source" + WAITS));
        is(it.meter.openRequests().get(0).request() == one, true);
        is(it.meter.openRequests().get(0).waits().size(), 1);
        first.complete(1);
        it.awaitEnded(1);
        second.completeExceptionally(new IllegalStateException());
        is(it.open(), Arrays.asList());
        is(it.meter.getEndedRequests(), 1L);
        two.close();
        two.close();
        it.awaitEnded(2);
        is(it.meter.getFailedRequests(), 1L);
        is(Arrays.asList(it.values("request_seconds_count"), it.values("wait_seconds_count"), it.values("failed_requests_total")).toString(),
                "[[2], [2], [1]]");
    }

    /** A call alone is a request that ends by itself. One that goes on is one more. */
    static void ofAllKinds() throws Exception {
        MeterTest it = new MeterTest();
        Stage<Integer> call = it.service.supplyAsync(() -> 1);
        is(it.open(), Arrays.asList("one call, open for T: 0 supply" + READY));
        it.tasks.remove().run();
        is(call.join(), 1);
        it.awaitEnded(1);
        Request full = it.service.withNextRequests().request("full");
        for (int k = 0; k < Machine.MOST_STAGES; k++) {
            full.completedFuture(k);
        }
        full.promise();
        is(it.open(), Arrays.asList("full, further, open for T: 0 source" + WAITS));
        Flow flow = new Flow("flow");
        Flow.Step<Integer> first = flow.supplyAsync(() -> 1).named("first");
        first.thenCombine(flow.<Integer>promise().named("second"), Integer::sum).named("sum");
        Request started = it.service.start(flow);
        is(it.open().get(1), "flow, open for T: 0 first" + READY + "; 1 second" + WAITS);
        it.tasks.remove().run();
        is(it.open().get(1), "flow, open for T: 1 second" + WAITS);
        is(it.meter.getOpenPromises(), 2);
        started.cancelAll();
        started.close();
        it.awaitEnded(2);
        is(Arrays.asList(it.values("function_seconds_count"), it.values("queue_seconds_count"), it.values("wait_seconds_count")).toString(),
                "[[2], [2], [1]]");
    }

    /** What each waits for: its function, a thread, somebody, or a stage that its function gave. */
    static void why() throws Exception {
        MeterTest it = new MeterTest();
        Request request = it.service.request("order");
        CountDownLatch begun = new CountDownLatch(1), end = new CountDownLatch(1);
        Stage<Integer> slow = request.supplyAsync(() -> {
            begun.countDown();
            Checks.await(end);
            return 1;
        }).named("slow");
        slow.thenApply(x -> x).named("behind");
        request.supplyAsync(() -> 2).named("queued");
        CompletableFuture<Integer> elsewhere = new CompletableFuture<>();
        Stage<Integer> given = request.completedFuture(3).named("given");
        given.thenCompose(x -> elsewhere).thenApply(x -> x);
        given.thenCompose(x -> given).join();
        slow.thenCompose(x -> given).named("not yet");
        Thread worker = new Thread(it.tasks.remove(), "worker");
        worker.start();
        Checks.await(begun);
        is(it.open(), Arrays.asList("order, open for T: 0 slow has run for T, on worker; 2 queued" + READY + "; 4 relay of what is elsewhere" + WAITS));
        is(Arrays.asList(it.meter.getOpenRequests(), it.meter.getRunningFunctions(), it.meter.getReadyFunctions(), it.meter.getOpenPromises()),
                Arrays.asList(1, 1, 1, 1));
        for (String name : Arrays.asList("open_requests", "running_functions", "ready_functions", "open_promises")) {
            is(it.values(name), Arrays.asList("1"));
        }
        Thread.sleep(1100);
        is(it.meter.getOldestReadySeconds() > 1 && it.meter.getOldestRequestSeconds() > 1, true);
        is(Double.parseDouble(it.values("oldest_ready_seconds").get(0)) > 1, true);
        is(Double.parseDouble(it.values("oldest_request_seconds").get(0)) > 1, true);
        elsewhere.complete(4);
        slow.cancel(true);
        is(it.open(), Arrays.asList("order, open for T: 0 slow is settled, and its function has run on for T, on worker; 2 queued" + READY));
        end.countDown();
        worker.join();
        is(it.open(), Arrays.asList("order, open for T: 2 queued" + READY));
        it.tasks.remove().run();
        is(it.open(), Arrays.asList());
        request.close();
        it.awaitEnded(1);
        // One of each took over a second: slow, the time for which queued was ready, the promise elsewhere, and the request.
        for (String each : Arrays.asList("function 4 5", "queue 4 5", "wait 1 2", "request 0 1")) {
            String[] wanted = each.split(" ");
            List<String> found = it.values(wanted[0] + "_seconds_bucket");
            is(Arrays.asList(found.get(6), found.get(10)), Arrays.asList("{le=\"1\"} " + wanted[1], "{le=\"+Inf\"} " + wanted[2]));
            is(Double.parseDouble(it.values(wanted[0] + "_seconds_sum").get(0)) > 1, true);
        }
    }

    /** It keeps no request that nobody else has. */
    static void letGo() throws Exception {
        MeterTest it = new MeterTest();
        Request request = it.service.request("lost");
        request.promise();
        WeakReference<Request> lost = new WeakReference<>(request);
        is(it.meter.getOpenRequests(), 1);
        for (request = null; lost.get() != null;) {
            System.gc();
            Thread.sleep(1);
        }
        is(it.meter.getOpenRequests(), 0);
    }

    /** As a bean. */
    static void bean() throws Exception {
        MeterTest it = new MeterTest();
        MBeanServer beans = ManagementFactory.getPlatformMBeanServer();
        ObjectName name = new ObjectName("cf:type=Meter,name=test");
        beans.registerMBean(it.meter, name);
        it.service.request("order").supplyAsync(() -> 1);
        is(beans.getAttribute(name, "ReadyFunctions"), 1);
        has(((String[]) beans.invoke(name, "listOpenRequests", null, null))[0], "order, open for ");
        has((String) beans.invoke(name, "text", null, null), "\n# TYPE cf_memory_ready_functions gauge\ncf_memory_ready_functions 1\n");
        it.tasks.remove().run();
        beans.unregisterMBean(name);
    }
}
