package cf.service;

import cf.internal.Words;
import java.io.IOException;
import java.lang.management.LockInfo;
import java.lang.management.ManagementFactory;
import java.lang.management.ThreadInfo;
import java.lang.reflect.Proxy;
import java.nio.charset.StandardCharsets;
import java.nio.file.Files;
import java.nio.file.Path;
import java.nio.file.Paths;
import java.util.Arrays;
import java.util.Objects;
import java.util.concurrent.Callable;
import java.util.concurrent.CompletableFuture;
import java.util.concurrent.CompletionStage;
import java.util.concurrent.CountDownLatch;
import java.util.concurrent.TimeUnit;

/** What tests check by, and odd stages and functions that several tests use: they refuse, break, or stand for another future. */
public final class Checks {
    /** Its executor is the common pool. */
    static final Service SERVICE = new Service();
    /** Its executor calls each function at once, in the thread that hands it over. */
    static final Service INLINE = new Service(Runnable::run);

    private Checks() {}

    public interface Test {
        void run() throws Exception;
    }

    public static void is(Object found, Object wanted) {
        if (!Objects.equals(found, wanted)) {
            throw new AssertionError(found + " and not " + wanted);
        }
    }

    public static void has(String text, String part) {
        if (!text.contains(part)) {
            throw new AssertionError(text + " hasn't " + part);
        }
    }

    /** Whether a stage is settled, for which no other thread goes on first where a test is run in all orders. */
    public static boolean isSettled(Stage<?> stage) {
        return stage.readOutcome(true) != null;
    }

    /** {@code cf_look check} says that an account fits, where that program is. */
    public static void fits(String account) throws IOException, InterruptedException {
        String program = System.getProperty("cf.look", "");
        if (program.isEmpty() || !Files.isExecutable(Paths.get(program))) {
            return;
        }
        Path input = Files.createTempFile("cf", ".json"), said = Files.createTempFile("cf", ".said");
        try {
            Files.write(input, account.getBytes(StandardCharsets.UTF_8));
            int status = new ProcessBuilder(program, "check").redirectInput(input.toFile()).redirectOutput(said.toFile()).start().waitFor();
            is(status + " " + new String(Files.readAllBytes(said), StandardCharsets.UTF_8).split("\n")[0], "0 fits");
        } finally {
            Files.delete(input);
            Files.delete(said);
        }
    }

    public static <X extends Throwable> X thrown(Class<X> kind, Test test) {
        try {
            test.run();
        } catch (Throwable thrown) {
            if (kind.isInstance(thrown)) {
                return kind.cast(thrown);
            }
            throw new AssertionError("another exception", thrown);
        }
        throw new AssertionError("no " + kind.getSimpleName());
    }

    /** Waits until something is so: as long as a slow machine may need, and no longer than a minute. */
    public static void until(Callable<Boolean> isSo) throws Exception {
        for (long began = System.nanoTime(); !isSo.call();) {
            if (System.nanoTime() - began > 60_000_000_000L) {
                throw new AssertionError("it isn't so after a minute");
            }
            Thread.sleep(1);
        }
    }

    static void await(CountDownLatch latch) {
        try {
            is(latch.await(60, TimeUnit.SECONDS), true);
        } catch (InterruptedException interrupted) {
            throw new AssertionError(interrupted);
        }
    }

    /** Waits until that thread waits for this monitor, which somebody else has. */
    static void awaitBlocked(Thread thread, Object monitor) throws InterruptedException {
        int wanted = System.identityHashCode(monitor);
        for (LockInfo lock = null; lock == null || lock.getIdentityHashCode() != wanted;) {
            is(thread.isAlive(), true);
            Thread.sleep(1);
            ThreadInfo info = ManagementFactory.getThreadMXBean().getThreadInfo(thread.getId());
            lock = info == null || info.getThreadState() != Thread.State.BLOCKED ? null : info.getLockInfo();
        }
    }

    static final class Broken extends Error {
        private static final long serialVersionUID = 1;

        Broken() {
            super("broken");
        }
    }

    static <U> U breaks() {
        throw new Broken();
    }

    /** Somebody's stage of which each method throws. */
    @SuppressWarnings("unchecked")
    static <U> CompletionStage<U> refusing(Throwable thrown) {
        return (CompletionStage<U>) Proxy.newProxyInstance(Checks.class.getClassLoader(), new Class<?>[] {CompletionStage.class},
                (proxy, method, given) -> {
                    throw thrown;
                });
    }

    static <U> CompletionStage<U> refusing() {
        return refusing(new UnsupportedOperationException("not asked"));
    }

    /** A stage that is neither a Stage nor a CompletableFuture, and ends as that does. */
    @SuppressWarnings("unchecked")
    static <U> CompletionStage<U> foreign(CompletableFuture<U> future) {
        return (CompletionStage<U>) Proxy.newProxyInstance(Checks.class.getClassLoader(), new Class<?>[] {CompletionStage.class},
                (proxy, method, given) -> method.getDeclaringClass() == Object.class ? method.invoke(future, given)
                        : future.getClass().getMethod(method.getName(), method.getParameterTypes()).invoke(future, given));
    }

    /** Times a stage out at once, by a word of the clock's, and calls in this thread what hangs on it. Whether it wasn't settled. */
    static boolean timeOut(Stage<?> stage) {
        FollowUps followUps = new FollowUps();
        boolean did;
        synchronized (stage.request.machine) {
            did = stage.request.applyWord(Words.failAs(Request.CLOCK, stage.number, Words.TIMED_OUT, 0), stage.request.callerNumber(), followUps);
        }
        Request.tell(followUps);
        return did;
    }

    /** What each stage holds, as reports have it: "pending", "value 3", "fault cancelled raw". */
    static String[] ends(History history) {
        String[] lines = history.report().split("\n");
        return Arrays.stream(lines).skip(history.events()).map(line -> line.replaceFirst("^stage [0-9]+ ", "")).toArray(String[]::new);
    }

    /** MB of memory that the process has. */
    static long resident() throws Exception {
        Path statm = Paths.get("/proc/self/statm");
        return Files.exists(statm) ? Long.parseLong(new String(Files.readAllBytes(statm)).split(" ")[1]) * 4096 >> 20 : 0;
    }
}
