package cf.service;

import static cf.service.Checks.breaks;
import static cf.service.Checks.is;
import static cf.service.Checks.refusing;
import static cf.service.Checks.SERVICE;
import static cf.service.Checks.thrown;

import java.util.ArrayList;
import java.util.Arrays;
import java.util.List;
import java.util.concurrent.CancellationException;
import java.util.concurrent.CompletableFuture;
import java.util.concurrent.CompletionException;
import java.util.concurrent.ExecutionException;
import java.util.concurrent.TimeUnit;
import java.util.concurrent.atomic.AtomicInteger;
import java.util.concurrent.atomic.AtomicReference;

/** Relays: stages that end as one of another request does, as another future does, or as a stage that refuses to tell. */
final class RelaysTest {
    private RelaysTest() {}

    static void acrossRequests() {
        Request one = SERVICE.request(), other = SERVICE.request();
        Stage<String> relayed = one.promise(), b = other.promise();
        Stage<String> relay = relayed.applyToEither(b, x -> x);
        is(relay.request() == one, true);
        is(one.history().toString().contains("1 relay, source"), true);
        b.completeExceptionally(new IllegalStateException("b"));
        is(thrown(CompletionException.class, relay::join).getCause().getMessage(), "b");
        Stage<String> composed = relayed.handle((x, e) -> "d").thenCompose(x -> other.supplyAsync(() -> x + "e"));
        relayed.complete(null);
        is(composed.join(), "de");
        is(one.adopt(relayed) == relayed, true);
    }

    /** A function may give such a one: its stage fails, and what else is ready goes on. Of a method that takes one it's thrown. */
    static void refusedToTell() throws Exception {
        Request relaying = SERVICE.request();
        Stage<Integer> before = relaying.promise();
        Stage<Integer> composed = before.thenCompose(x -> refusing()), async = before.thenComposeAsync(x -> refusing());
        Stage<Integer> behind = before.thenApply(x -> x + 1);
        Stage<Integer> saved = composed.exceptionallyCompose(error -> refusing());
        is(thrown(UnsupportedOperationException.class, () -> before.thenCombine(refusing(), (x, y) -> x)).getMessage(), "not asked");
        before.complete(1);
        is(behind.join(), 2);
        for (Stage<Integer> each : Arrays.asList(composed, async, saved)) {
            is(thrown(ExecutionException.class, () -> each.get(20, TimeUnit.SECONDS)).getCause().getMessage(), "not asked");
        }
    }

    /** What somebody fails a stage with arrives where that is handed on, as it is. */
    static void ownCancellations() {
        Request relaying = SERVICE.request();
        CompletableFuture<Integer> foreign = new CompletableFuture<>();
        Stage<Integer> before = relaying.promise(), later = relaying.promise(), other = SERVICE.request().promise();
        Stage<Integer> high = before.thenCompose(x -> relaying.<Integer>failedFuture(new CancellationException("why")));
        Stage<Integer> elsewhere = before.thenCompose(x -> other), outside = before.thenCompose(x -> foreign), plain = before.thenCompose(x -> later);
        Stage<Integer> adopted = relaying.adopt(foreign);
        before.complete(1);
        later.cancel(true);
        other.completeExceptionally(new CancellationException("why"));
        foreign.completeExceptionally(new CancellationException("why"));
        for (Stage<Integer> each : Arrays.asList(high, elsewhere, outside)) {
            is(each.isCancelled(), false);
            is(thrown(CompletionException.class, each::join).getCause().getMessage(), "why");
        }
        is(adopted.isCancelled(), true);
        is(thrown(CancellationException.class, adopted::join).getMessage(), "why");
        is(Checks.ends(relaying.history())[adopted.number()].startsWith("fault thrown "), true); // So the history says why.
        is(thrown(CompletionException.class, plain::join).getCause() instanceof CancellationException, true);
        CancellationException given = new CancellationException();
        is(thrown(CancellationException.class, relaying.adopt(SERVICE.request().<Integer>failedFuture(given))::join) == given, true);
        is(relaying.history().toString().contains("cancels 2 source") || relaying.history().toString().contains("cancels 1 source"), true);
    }

    /** What one of a row of relays throws keeps nothing from the others, from waiting threads and functions, and is thrown in the end. */
    static void brokenOff() throws Exception {
        Request relaying = SERVICE.request();
        Stage<Integer> before = relaying.promise(), behind = before.thenApply(x -> x + 1);
        List<Stage<Integer>> relays = new ArrayList<>();
        for (int k = 0; k < 5; k++) {
            relays.add(SERVICE.request().adopt(before));
        }
        AtomicInteger asked = new AtomicInteger();
        AtomicReference<Throwable> thrown = new AtomicReference<>();
        Thread odd = new Thread(() -> {
            try {
                before.complete(1);
            } catch (Throwable error) {
                thrown.set(error);
            }
        }) {
            @Override
            public long getId() {
                return asked.incrementAndGet() == 3 ? breaks() : 1_000_000;
            }
        };
        odd.start();
        odd.join();
        is(thrown.get() instanceof Checks.Broken, true);
        is(behind.get(20, TimeUnit.SECONDS), 2);
        int settled = 0;
        for (Stage<Integer> each : relays) {
            settled += each.isDone() ? 1 : 0;
        }
        is(settled, 4);
    }
}
