package cf.service;

import static cf.service.Checks.await;
import static cf.service.Checks.is;

import cf.service.opentelemetry.Spans;
import io.opentelemetry.api.trace.Tracer;
import io.opentelemetry.context.Context;
import java.nio.file.Files;
import java.nio.file.Path;
import java.util.ArrayList;
import java.util.Arrays;
import java.util.Collections;
import java.util.List;
import java.util.concurrent.BlockingQueue;
import java.util.concurrent.CompletableFuture;
import java.util.concurrent.CountDownLatch;
import java.util.concurrent.Executor;
import java.util.concurrent.LinkedBlockingQueue;
import java.util.concurrent.TimeUnit;
import java.util.logging.Handler;
import java.util.logging.LogRecord;
import java.util.logging.Logger;
import java.util.stream.Collectors;

/** Which contexts go along with functions, who is told that a request has ended, and which spans has it? */
final class TracesTest {
    private static final ThreadLocal<String> TENANT = ThreadLocal.withInitial(() -> "-");
    private static final Contexts TENANTS = () -> {
        String captured = TENANT.get();
        return act -> within(captured, act);
    };

    private TracesTest() {}

    private static void within(String tenant, Runnable act) {
        String old = TENANT.get();
        TENANT.set(tenant);
        try {
            act.run();
        } finally {
            TENANT.set(old);
        }
    }

    private static <T> T as(String tenant, java.util.function.Supplier<T> act) {
        List<T> given = new ArrayList<>();
        within(tenant, () -> given.add(act.get()));
        return given.get(0);
    }

    private static String leaks() {
        String seen = TENANT.get();
        TENANT.set("leaked");
        return seen;
    }

    /** Each function has the context of where it was handed over, whoever calls it. */
    static void contexts() throws Exception {
        for (Executor executor : Arrays.<Executor>asList(Runnable::run, act -> new Thread(act).start())) {
            Service carrying = new Service(executor).withContexts(TENANTS);
            Request request = carrying.request("r");
            Stage<String> promise = request.promise();
            List<Stage<String>> attached = new ArrayList<>();
            attached.add(as("acme", () -> promise.thenApply(x -> leaks())));
            attached.add(as("umbrella", () -> promise.thenApplyAsync(x -> leaks())));
            attached.add(as("both", () -> promise.thenCombine(promise, (x, y) -> leaks())));
            attached.add(as("handled", () -> promise.handle((x, e) -> leaks())));
            attached.add(as("composed", () -> promise.thenCompose(x -> CompletableFuture.completedFuture(leaks()))));
            attached.add(as("recovered", () -> promise.thenApply(x -> Checks.<String>breaks()).exceptionally(e -> leaks())));
            attached.add(as("supplied", () -> request.supplyAsync(TracesTest::leaks)));
            attached.add(as("one call", () -> carrying.supplyAsync(TracesTest::leaks)));
            attached.add(as("completed", () -> request.<String>promise().completeAsync(TracesTest::leaks)));
            within("completer", () -> promise.complete("x"));
            List<String> seen = new ArrayList<>();
            for (Stage<String> stage : attached) {
                seen.add(stage.get(20, TimeUnit.SECONDS));
            }
            is(seen, Arrays.asList("acme", "umbrella", "both", "handled", "composed", "recovered", "supplied", "one call", "completed"));
            is(TENANT.get(), "-");
            Flow flow = new Flow("f");
            Flow.Step<String> first = flow.promise();
            Flow.Step<String> second = first.thenApply(x -> leaks());
            Request started = as("starter", () -> carrying.start(flow));
            Stage<String> last = as("later", () -> started.stage(second).thenApply(x -> x + " " + leaks()));
            within("completer", () -> started.stage(first).complete("x"));
            is(last.get(20, TimeUnit.SECONDS), "starter later");
        }
        Checks.INLINE.request().runAsync(TracesTest::leaks);
        is(leaks(), "leaked"); // without contexts it is the thread's own
        TENANT.remove();
        Contexts others = () -> act -> within("inner", act);
        List<String> both = new ArrayList<>();
        within("outer", () -> TENANTS.and(others).capture().execute(() -> both.add(TENANT.get())));
        within("outer", () -> others.and(TENANTS).capture().execute(() -> both.add(TENANT.get())));
        is(both, Arrays.asList("inner", "outer"));
    }

    /** What a context throws, the call throws, and nothing is changed; one that doesn't call a function at once fails its stage. */
    static void brokenContexts() throws Exception {
        boolean[] breaks = new boolean[1];
        Service carrying = new Service(Runnable::run).withContexts(() -> {
            if (breaks[0]) {
                Checks.breaks();
            }
            return Runnable::run;
        });
        Request request = carrying.request("r");
        Stage<Integer> stage = request.completedFuture(1);
        breaks[0] = true;
        Checks.thrown(Checks.Broken.class, () -> stage.thenApply(x -> x));
        Checks.thrown(Checks.Broken.class, () -> request.supplyAsync(() -> 1));
        Checks.thrown(Checks.Broken.class, () -> carrying.request("s"));
        is(request.history().stages(), 1);
        breaks[0] = false;
        is(stage.thenApply(x -> x + 1).join(), 2);
        Service idle = new Service(Runnable::run).withContexts(() -> act -> {});
        is(idle.request("r").supplyAsync(() -> 1).handle((x, e) -> 2).handle((x, e) -> 3).isCompletedExceptionally(), true);
    }

    /** A hook is told once, when a request is closed and all is settled. */
    static void ends() throws Exception {
        BlockingQueue<History> told = new LinkedBlockingQueue<>();
        Service service = new Service(act -> new Thread(act).start()).withContexts(TENANTS).onEnd(told::add);
        Request request = service.request("a");
        Stage<Integer> promise = request.promise();
        Stage<Integer> next = promise.thenApply(x -> x + 1);
        request.close();
        request.close();
        is(told.poll(50, TimeUnit.MILLISECONDS), null);
        promise.complete(1);
        is(next.join(), 2);
        is(told.poll(20, TimeUnit.SECONDS).toString().contains("1 apply ends: 2"), true);
        request.close();
        Flow flow = new Flow("of a flow");
        Flow.Step<Integer> start = flow.promise();
        flow.supplyAsync(() -> 1);
        start.thenApply(x -> x + 1);
        Request started = service.start(flow);
        started.close();
        is(told.poll(50, TimeUnit.MILLISECONDS), null);
        started.stage(start).complete(1);
        is(told.poll(20, TimeUnit.SECONDS).line().contains("0 open"), true);
        is(service.supplyAsync(() -> 1).join(), 1);
        is(told.poll(20, TimeUnit.SECONDS).name(), "one call");
        try (Request empty = service.request("empty")) {
            empty.completedFuture(1);
        }
        is(told.poll(20, TimeUnit.SECONDS).name(), "empty");
        is(told.poll(50, TimeUnit.MILLISECONDS), null);
        BlockingQueue<String> tenants = new LinkedBlockingQueue<>();
        as("opener", () -> new Service().withContexts(TENANTS).onEnd(history -> tenants.add(TENANT.get())).request("b")).close();
        is(tenants.poll(20, TimeUnit.SECONDS), "opener");
    }

    /** A hook that throws, or takes long, holds up nothing; so many wait for it. */
    static void brokenHooks() throws Exception {
        List<String> warned = Collections.synchronizedList(new ArrayList<>());
        Logger logger = Logger.getLogger("cf.service");
        Handler handler = new Handler() {
            @Override
            public void publish(LogRecord record) {
                warned.add(record.getMessage());
            }

            @Override
            public void flush() {}

            @Override
            public void close() {}
        };
        logger.setUseParentHandlers(false);
        logger.addHandler(handler);
        try {
            CountDownLatch gate = new CountDownLatch(1), told = new CountDownLatch(2);
            Service service = new Service(Runnable::run).onEnd(history -> {
                await(gate);
                told.countDown();
                Checks.breaks();
            });
            for (int k = 0; k < 2100; k++) {
                try (Request request = service.request()) {
                    is(request.supplyAsync(() -> 1).join(), 1);
                }
            }
            is(warned.size(), 1);
            gate.countDown();
            await(told);
            while (warned.size() < 2050) {
                Thread.sleep(1);
            }
            is(warned.get(1), "the hook of an ended request has thrown");
            is(warned.stream().filter(said -> said.startsWith("2048 ended")).count(), 1L);
        } finally {
            logger.removeHandler(handler);
            logger.setUseParentHandlers(true);
        }
    }

    private static Request failing(Service service) {
        try (Request request = service.request("order \"17\"\n")) {
            Stage<Integer> load = request.supplyAsync(() -> 1).named("load");
            load.thenApply(x -> Checks.<Integer>breaks()).named("charge").thenApply(x -> x);
            return request;
        }
    }

    /** The spans of a request, of one that recovers, and of stages that are late or never end. */
    static void spans() throws Exception {
        long second = 1_000_000_000, before = System.currentTimeMillis() * 1_000_000 - second; // two clocks are read, one after another
        List<Span> spans = failing(Checks.INLINE).history().spans();
        is(spans.stream().map(Span::name).collect(Collectors.toList()), Arrays.asList("order \"17\"\n", "load", "charge"));
        is(spans.stream().map(Span::stage).collect(Collectors.toList()), Arrays.asList(-1, 0, 1));
        is(spans.stream().map(Span::status).collect(Collectors.toList()), Arrays.asList(Span.Status.ERROR, Span.Status.OK, Span.Status.ERROR));
        is(spans.stream().map(Span::message).collect(Collectors.toList()),
                Arrays.asList("cf.service.Checks$Broken: broken", "", "cf.service.Checks$Broken: broken"));
        is(spans.stream().map(Span::sources).collect(Collectors.toList()),
                Arrays.asList(Collections.emptyList(), Collections.emptyList(), Arrays.asList(0)));
        Span whole = spans.get(0), charge = spans.get(2);
        is(charge.attributes().toString(), "{cf.stage=1, cf.caller=main, cf.form=apply}");
        is(charge.thrown().toString(), "{exception.type=cf.service.Checks$Broken, exception.message=cf.service.Checks$Broken: broken}");
        is(whole.thrown(), null);
        is(before <= whole.start() && whole.start() <= spans.get(1).start() && spans.get(1).end() <= charge.start()
                && charge.start() <= charge.end() && charge.end() <= whole.end()
                && whole.end() <= System.currentTimeMillis() * 1_000_000 + second, true);
        is(failing(Checks.INLINE.withDescribe(Describe.NOTHING)).history().spans().get(2).thrown().toString(), "{exception.message=-}");
        Request request = Checks.INLINE.request("r");
        is(request.history().spans().size(), 0);
        Stage<Integer> promise = request.promise();
        is(request.history().spans().get(0).status(), Span.Status.UNSET);
        Stage<Integer> inner = promise.thenCompose(x -> request.supplyAsync(Checks::<Integer>breaks));
        inner.exceptionally(e -> 7);
        promise.complete(1);
        is(request.history().spans().get(0).status(), Span.Status.OK);
        Request linked = Checks.INLINE.request("linked");
        Stage<Integer> below = linked.supplyAsync(Checks::<Integer>breaks);
        linked.completedFuture(1).thenCompose(x -> below).exceptionally(e -> 7);
        is(linked.history().spans().get(0).status(), Span.Status.OK);
        CountDownLatch gate = new CountDownLatch(1), begun = new CountDownLatch(1);
        Request late = Checks.SERVICE.request("late");
        Stage<Void> slow = late.runAsync(() -> {
            begun.countDown();
            await(gate);
        });
        await(begun);
        slow.orTimeout(1, TimeUnit.MILLISECONDS).handle((x, e) -> x).join();
        Span running = late.history().spans().get(1);
        is(running.status() + " " + running.message(), "ERROR timed out");
        gate.countDown();
        Flow flow = new Flow("f");
        Flow.Step<Integer> first = flow.supplyAsync(() -> 1);
        first.thenCombine(first.thenApply(x -> x + 1), Integer::sum);
        is(Checks.INLINE.start(flow).history().spans().stream().map(span -> span.sources().toString()).collect(Collectors.toList()),
                Arrays.asList("[]", "[]", "[0]", "[0, 1]"));
    }

    /** A line of a file for each request. */
    static void files() throws Exception {
        Path file = Files.createTempFile("spans", ".jsonl");
        try {
            CountDownLatch told = new CountDownLatch(2);
            SpanFile spans = new SpanFile(file, "shop");
            Service service = new Service(Runnable::run).onEnd(history -> {
                spans.accept(history);
                told.countDown();
            });
            failing(service);
            service.request("nothing").close();
            await(told);
            List<String> lines = Files.readAllLines(file);
            is(lines.size(), 1);
            String line = lines.get(0), trace = line.replaceAll("(?s).*?\"traceId\":\"([0-9a-f]{32})\".*", "$1");
            is(trace.length(), 32);
            String shown = line.replace(trace, "T").replaceAll("Nano\":\"[0-9]+", "Nano\":\"N");
            String times = "\"kind\":1,\"startTimeUnixNano\":\"N\",\"endTimeUnixNano\":\"N\",\"attributes\":[";
            is(shown, "{\"resourceSpans\":[{\"resource\":{\"attributes\":[{\"key\":\"service.name\",\"value\":{\"stringValue\":\"shop\"}}]},"
                    + "\"scopeSpans\":[{\"scope\":{\"name\":\"cf.service\"},\"spans\":["
                    + "{\"traceId\":\"T\",\"spanId\":\"ffffffffffffffff\",\"name\":\"order \\u002217\\u0022\\u000a\"," + times + "],\"events\":[],"
                    + "\"links\":[],\"status\":{\"code\":2,\"message\":\"cf.service.Checks$Broken: broken\"}},"
                    + "{\"traceId\":\"T\",\"spanId\":\"0000000000000001\",\"parentSpanId\":\"ffffffffffffffff\",\"name\":\"load\"," + times
                    + attributes(0, "supply") + "],\"events\":[],\"links\":[],\"status\":{\"code\":1}},"
                    + "{\"traceId\":\"T\",\"spanId\":\"0000000000000002\",\"parentSpanId\":\"ffffffffffffffff\",\"name\":\"charge\"," + times
                    + attributes(1, "apply") + "],\"events\":[{\"timeUnixNano\":\"N\",\"name\":\"exception\",\"attributes\":["
                    + "{\"key\":\"exception.type\",\"value\":{\"stringValue\":\"cf.service.Checks$Broken\"}},"
                    + "{\"key\":\"exception.message\",\"value\":{\"stringValue\":\"cf.service.Checks$Broken: broken\"}}]}],"
                    + "\"links\":[{\"traceId\":\"T\",\"spanId\":\"0000000000000001\"}],"
                    + "\"status\":{\"code\":2,\"message\":\"cf.service.Checks$Broken: broken\"}}]}]}]}");
        } finally {
            Files.delete(file);
        }
    }

    private static String attributes(int stage, String form) {
        return "{\"key\":\"cf.stage\",\"value\":{\"intValue\":\"" + stage + "\"}},{\"key\":\"cf.caller\",\"value\":{\"stringValue\":\"main\"}},"
                + "{\"key\":\"cf.form\",\"value\":{\"stringValue\":\"" + form + "\"}}";
    }

    /** What OpenTelemetry is handed: the classes below io.opentelemetry that stand here have those of its calls that are used. */
    static void openTelemetry() throws Exception {
        Tracer tracer = new Tracer();
        CountDownLatch told = new CountDownLatch(1);
        Service service = new Service(Runnable::run).withContexts(Spans.CONTEXTS).onEnd(new Spans(tracer).andThen(history -> told.countDown()));
        io.opentelemetry.api.trace.Span http = new io.opentelemetry.api.trace.Span("http");
        Request[] request = new Request[1];
        new Context(http).wrap(Runnable::run).execute(() -> request[0] = failing(service));
        await(told);
        List<Span> spans = request[0].history().spans();
        is(tracer.begun.size(), 3);
        io.opentelemetry.api.trace.Span whole = tracer.begun.get(0), load = tracer.begun.get(1), charge = tracer.begun.get(2);
        is(Arrays.asList(whole.parent, load.parent, charge.parent), Arrays.asList(http, whole, whole));
        is(Arrays.asList(whole.links, load.links, charge.links), Arrays.asList(Arrays.asList(), Arrays.asList(), Arrays.asList(load)));
        is(Arrays.asList(whole.status, load.status, charge.status), Arrays.asList("ERROR cf.service.Checks$Broken: broken", "OK ",
                "ERROR cf.service.Checks$Broken: broken"));
        is(charge.attributes.toString(), "{cf.caller=main, cf.form=apply, cf.stage=1}");
        is(charge.events, Arrays.asList("exception {exception.message=cf.service.Checks$Broken: broken, "
                + "exception.type=cf.service.Checks$Broken} " + charge.end));
        for (int k = 0; k < 3; k++) {
            io.opentelemetry.api.trace.Span shown = tracer.begun.get(k);
            is(shown.name, spans.get(k).name());
            // How long a tick takes is known better with time.
            is(Math.abs(shown.end - shown.start - (spans.get(k).end() - spans.get(k).start())) < 10_000_000, true);
            is(shown.start <= shown.end && whole.start <= shown.start && shown.end <= whole.end, true);
            is(Math.abs(shown.start - spans.get(k).start()) < 10_000_000_000L, true);
        }
    }
}
