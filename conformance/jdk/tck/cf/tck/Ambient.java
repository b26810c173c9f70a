package cf.tck;

import cf.service.Request;
import cf.service.Service;
import cf.service.Stage;
import java.util.ArrayList;
import java.util.List;
import java.util.concurrent.CompletableFuture;
import java.util.concurrent.CompletionStage;
import java.util.concurrent.Executor;
import java.util.concurrent.TimeUnit;
import java.util.function.Supplier;

/**
 * What an adapted test calls in place of CompletableFuture's constructor and static methods: stages of one request for each test, or, by
 * the property tck.requests=each, of one for each stage that stands behind no other.
 */
public class Ambient<T> extends Stage<T> {
    private static final boolean EACH = "each".equals(System.getProperty("tck.requests"));
    private static final Service SERVICE = new Service();
    private static final List<Request> MADE = new ArrayList<>();
    private static Request current = SERVICE.request("before").continueInNext();

    public Ambient() {
        super(ambient());
    }

    private static synchronized Request ambient() {
        if (EACH) {
            MADE.add(SERVICE.request().continueInNext());
            return MADE.get(MADE.size() - 1);
        }
        while (current.next() != null) {
            current = current.next();
            MADE.add(current);
        }
        return current;
    }

    static synchronized void begin(String name) {
        MADE.clear();
        current = SERVICE.request(name).continueInNext();
        MADE.add(current);
    }

    /** All requests since the beginning. */
    static synchronized List<Request> made() {
        ambient();
        return List.copyOf(MADE);
    }

    public static <U> CompletableFuture<U> incomplete() {
        return ambient().promise();
    }

    public static <U> CompletableFuture<U> supplyAsync(Supplier<U> supplier) {
        return ambient().supplyAsync(supplier);
    }

    public static <U> CompletableFuture<U> supplyAsync(Supplier<U> supplier, Executor executor) {
        return ambient().supplyAsync(supplier, executor);
    }

    public static CompletableFuture<Void> runAsync(Runnable runnable) {
        return ambient().runAsync(runnable);
    }

    public static CompletableFuture<Void> runAsync(Runnable runnable, Executor executor) {
        return ambient().runAsync(runnable, executor);
    }

    public static <U> CompletableFuture<U> completedFuture(U value) {
        return ambient().completedFuture(value);
    }

    public static <U> CompletableFuture<U> failedFuture(Throwable error) {
        return ambient().failedFuture(error);
    }

    public static <U> CompletionStage<U> completedStage(U value) {
        return ambient().completedStage(value);
    }

    public static <U> CompletionStage<U> failedStage(Throwable error) {
        return ambient().failedStage(error);
    }

    public static CompletableFuture<Void> allOf(CompletableFuture<?>... of) {
        return ambient().allOf(of);
    }

    public static CompletableFuture<Object> anyOf(CompletableFuture<?>... of) {
        return ambient().anyOf(of);
    }

    public static Executor delayedExecutor(long delay, TimeUnit unit, Executor executor) {
        return Service.delayedExecutor(delay, unit, executor);
    }

    public static Executor delayedExecutor(long delay, TimeUnit unit) {
        return Service.delayedExecutor(delay, unit, new CompletableFuture<>().defaultExecutor());
    }
}
