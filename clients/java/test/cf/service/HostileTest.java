package cf.service;

import static cf.service.Checks.is;

import java.lang.reflect.InvocationTargetException;
import java.lang.reflect.Method;
import java.nio.charset.StandardCharsets;
import java.nio.file.Files;
import java.nio.file.Path;
import java.util.ArrayList;
import java.util.Arrays;
import java.util.List;
import java.util.Random;
import java.util.concurrent.TimeUnit;
import java.util.concurrent.atomic.AtomicBoolean;
import java.util.concurrent.atomic.AtomicInteger;

/**
 * What Java can do to the code below it, each in a process of its own with the JVM's checks of JNI: memory that ends within a call, stacks
 * that end there, threads that are stopped, a ledger that many threads use and close.
 */
public final class HostileTest {
    private static final Service SERVICE = new Service(Runnable::run);
    private static Object ballast;

    private HostileTest() {}

    static void survived() throws Exception {
        // Frames of what fills the stack are of one size for as long as nobody compiles them.
        String[] options = {"-Xcheck:jni", "-Xmx16m", "-XX:+UseSerialGC", "-XX:TieredStopAtLevel=1", "-Dcf.room=70000", "-Dcf.kept=-5",
                "-XX:CompileCommand=exclude,cf.service.HostileTest::deepest", "-XX:CompileCommand=exclude,cf.service.HostileTest::down"};
        for (String what : new String[] {"uses", "memory", "stacks", "stops"}) {
            String told = child("cf.service.HostileTest", what, options);
            is(what + ": " + (told.contains("survived") && !told.contains("in native method") ? "survived" : told), what + ": survived");
        }
    }

    /** What a process tells in which this class does that. */
    static String child(String main, String what, String... options) throws Exception {
        List<String> command = new ArrayList<>(Arrays.asList(System.getProperty("java.home") + "/bin/java"));
        command.addAll(Arrays.asList(options));
        command.addAll(Arrays.asList("-cp", System.getProperty("java.class.path"), main, what));
        Path told = Files.createTempFile("hostile", ".txt");
        Process process = new ProcessBuilder(command).redirectErrorStream(true).redirectOutput(told.toFile()).start();
        boolean ended = process.waitFor(400, TimeUnit.SECONDS);
        process.destroyForcibly();
        String text = new String(Files.readAllBytes(told), StandardCharsets.UTF_8);
        Files.delete(told);
        return text + (ended ? "\nstatus " + process.exitValue() : "\nit hangs");
    }

    public static void main(String[] args) throws Exception {
        switch (args[0]) {
            case "uses":
                uses();
                break;
            case "memory":
                memory();
                break;
            case "stacks":
                stacks();
                break;
            case "stops":
                stops();
                break;
            default:
                FreeingTest.unclosed();
        }
        System.out.println("survived");
        System.exit(0);
    }

    /** Requests are whole, whatever went on before. */
    private static void whole() throws Exception {
        for (int k = 0; k < 100; k++) {
            Request hostile = SERVICE.request("whole");
            Stage<Integer> first = hostile.promise(), last = first;
            for (int n = 0; n < 40; n++) {
                last = last.thenApply(x -> x + 1);
            }
            first.complete(k);
            is(last.join(), k + 40);
            is(hostile.history().events(), 122);
            is(hostile.history().report().endsWith("stage 40 value 40\n"), true);
            if (k % 2 == 0) {
                hostile.close();
            }
        }
    }

    /** Each native method, also of ledgers that are closed and begun again. */
    private static void uses() throws Exception {
        Request hostile = SERVICE.request("used");
        Stage<Integer> first = hostile.promise();
        List<Stage<Integer>> behind = new ArrayList<>();
        for (int k = 0; k < 600; k++) {
            behind.add(k % 2 == 0 ? first.copy() : first.thenApply(x -> x + 1));
        }
        hostile.close();
        first.complete(1);
        for (int k = 0; k < 600; k++) {
            is(behind.get(k).join(), k % 2 == 0 ? 1 : 2);
        }
        hostile.history().account();
        hostile.close();
        is(hostile.history().toString().split("\n").length, 1 + 601 + 1 + 2 * 300 + 601);
        Flow flow = new Flow("used");
        Flow.Step<Integer> step = flow.promise(), ready = flow.supplyAsync(() -> 1);
        Flow.Step<Void> all = flow.allOf(step, ready);
        for (int k = 0; k < 50; k++) {
            try (Request started = SERVICE.start(flow, k)) {
                started.stage(all).join();
                is(started.stage(step).thenApply(x -> x + 1).join(), k + 1);
            }
        }
        flow = null;
        step = null;
        System.gc();
        List<Thread> threads = new ArrayList<>();
        AtomicInteger sum = new AtomicInteger();
        for (int t = 0; t < 4; t++) {
            threads.add(new Thread(() -> {
                for (int k = 0; k < 100; k++) {
                    sum.addAndGet(first.thenApply(x -> x).join());
                    if (k % 10 == 0) {
                        hostile.close();
                    }
                }
            }));
            threads.get(t).start();
        }
        for (Thread each : threads) {
            each.join();
        }
        is(sum.get(), 400);
        whole();
    }

    /** The heap ends while requests are opened, used, told of and closed. */
    private static void memory() throws Exception {
        whole();
        for (int round = 0; round < 2; round++) {
            List<Object> kept = new ArrayList<>();
            List<Request> requests = new ArrayList<>(60);
            int refused = 0;
            for (int size = 1 << 20; size >= 64; size /= 4) {
                try {
                    for (;;) {
                        kept.add(new byte[size]);
                    }
                } catch (OutOfMemoryError full) {
                    refused++;
                }
            }
            for (int k = 0; k < 60; k++) {
                try {
                    Request hostile = SERVICE.request("memory");
                    Stage<Integer> first = hostile.promise();
                    first.thenApply(x -> x + 1);
                    first.complete(1);
                    hostile.history().toString();
                    hostile.close();
                    first.thenApply(x -> x + 2);
                    requests.add(hostile);
                } catch (OutOfMemoryError full) {
                    refused++;
                    if (k % 10 == 9) {
                        kept.remove(kept.size() - 1);
                    }
                }
            }
            kept.clear();
            ballast = new byte[1 << 20];
            is(refused > 0, true);
            for (Request each : requests) {
                each.close();
            }
        }
        whole();
    }

    private static int deepest(int depth) {
        try {
            return deepest(depth + 1);
        } catch (StackOverflowError end) {
            return depth;
        }
    }

    private static int down(int depth, Runnable act) {
        if (depth > 0) {
            return down(depth - 1, act) + 1;
        }
        act.run();
        return 0;
    }

    /** The stack ends within calls of the library, which then can't go on; other requests do. */
    private static void stacks() throws Exception {
        Request large = SERVICE.request("large");
        Stage<Integer> source = large.promise();
        for (int k = 0; k < 2000; k++) {
            source.thenApply(x -> x + 1);
        }
        Runnable[] acts = {
            () -> SERVICE.request("deep").promise().complete(null),
            () -> SERVICE.request("deep").completedFuture(1).thenApply(x -> x).request().close(),
            () -> large.history().report(),
            () -> {
                Request hostile = SERVICE.request("deep");
                for (int k = 0; k < 70; k++) {
                    hostile.promise();
                }
                hostile.close();
            },
            () -> {
                Flow flow = new Flow("deep");
                for (int k = 0; k < 30; k++) {
                    flow.promise();
                }
                SERVICE.start(flow, 1).close();
            },
        };
        for (int round = 0; round < acts.length; round++) {
            Runnable act = acts[round];
            int[] ended = new int[2];
            act.run(); // A class that fails to be initialized stays so.
            Thread thread = new Thread(null, () -> {
                int deepest = deepest(0);
                for (int k = 0; k < deepest - 50 && ended[0] < 20; k += 1 + k / 50) {
                    try {
                        down(deepest - k, act);
                        ended[0]++;
                    } catch (StackOverflowError end) {
                        ended[1]++;
                    }
                }
            }, "deep", 300_000 + round * 977);
            thread.start();
            thread.join();
            is(ended[0] > 0 && ended[1] > 0, true);
        }
        whole();
    }

    /** Threads are stopped wherever they are, where the JVM still does that. */
    private static void stops() throws Exception {
        whole();
        Method stop = Thread.class.getMethod("stop");
        Random random = new Random(7);
        for (int round = 0; round < 30; round++) {
            AtomicBoolean over = new AtomicBoolean();
            Thread thread = new Thread(() -> {
                try {
                    while (!over.get()) {
                        try (Request hostile = SERVICE.request("stopped")) {
                            Stage<Integer> first = hostile.promise();
                            first.thenApply(x -> x + 1).thenApply(x -> x + 1);
                            first.complete(1);
                            hostile.history().report();
                        }
                    }
                } catch (Throwable thrown) {
                    // It is stopped, if no stage took the error for its function's.
                }
            });
            thread.start();
            Thread.sleep(random.nextInt(20));
            try {
                stop.invoke(thread);
            } catch (InvocationTargetException newer) {
                break; // Java 20 and later stop no threads.
            } finally {
                over.set(true);
            }
            thread.join();
            System.gc();
        }
        whole();
    }
}
