package cf.service;

import static cf.service.Checks.INLINE;
import static cf.service.Checks.is;
import static cf.service.Checks.SERVICE;
import static cf.service.Checks.thrown;

import cf.service.Checks.Broken;
import java.io.FileNotFoundException;
import java.io.IOException;
import java.time.Duration;
import java.util.ArrayList;
import java.util.Arrays;
import java.util.List;
import java.util.concurrent.CancellationException;
import java.util.concurrent.CompletionException;
import java.util.concurrent.atomic.AtomicInteger;

/** What is tried again, and after which pause. */
final class RetriesTest {
    private RetriesTest() {}

    private static Integer failing(AtomicInteger asked, int times) throws IOException {
        if (asked.incrementAndGet() <= times) {
            throw new IOException("try " + asked.get());
        }
        return asked.get();
    }

    /** It is tried so many times, and no more; the last exception has the earlier ones. */
    static void times() {
        Request request = INLINE.request();
        AtomicInteger asked = new AtomicInteger();
        is(request.retry(Retry.of(3), () -> failing(asked, 2)).join() + " " + asked.get(), "3 3");
        asked.set(0);
        Stage<Integer> failed = request.retry(Retry.of(3), () -> failing(asked, 9));
        Throwable last = thrown(CompletionException.class, failed::join).getCause();
        is(last.getMessage() + Arrays.toString(last.getSuppressed()) + asked.get(),
                "try 3[java.io.IOException: try 1, java.io.IOException: try 2]3");
        is(request.retry(Retry.of(1), () -> failing(asked, 9)).handle((value, error) -> error.getMessage()).join(), "try 4");
        IOException same = new IOException("same");
        Stage<Integer> often = request.retry(Retry.of(4), () -> {
            throw same;
        });
        is(thrown(CompletionException.class, often::join).getCause() == same && same.getSuppressed().length == 0, true);
        Checks.has(request.history().toString(), " try 2 ends: java.io.IOException: try 2");
    }

    /** Only what is named is tried again. */
    static void kinds() {
        Request request = INLINE.request();
        AtomicInteger asked = new AtomicInteger();
        Retry missing = Retry.of(5).on(FileNotFoundException.class, IllegalStateException.class);
        is(thrown(CompletionException.class, request.retry(missing, () -> failing(asked, 9))::join).getCause().getMessage() + asked.get(), "try 11");
        asked.set(0);
        is(request.retry(Retry.of(5).on(IOException.class), () -> failing(asked, 2)).join(), 3);
        asked.set(0);
        Stage<Integer> broken = request.retry(Retry.of(5), () -> {
            asked.incrementAndGet();
            throw new Broken(); // an Error
        });
        is(thrown(CompletionException.class, broken::join).getCause().getClass() + " " + asked.get(), Broken.class + " 1");
    }

    /** Pauses grow, and have their random part. */
    static void pauses() {
        Retry retry = Retry.of(9).delay(Duration.ofMillis(100)).factor(2);
        is(Arrays.asList(retry.pauseAfter(1, true), retry.pauseAfter(2, true), retry.pauseAfter(4, true)),
                Arrays.asList(100_000_000L, 200_000_000L, 800_000_000L));
        Retry random = retry.jitter(true);
        long least = Long.MAX_VALUE, most = 0;
        for (int k = 0; k < 1_000; k++) {
            long pause = random.pauseAfter(2, true);
            least = Math.min(least, pause);
            most = Math.max(most, pause);
        }
        is(least >= 100_000_000L && least < 110_000_000L && most > 190_000_000L && most <= 200_000_000L, true);
        is(random.pauseAfter(2, false) + " " + random.jitter(false).pauseAfter(2, true), "200000000 200000000");
        is(Retry.of(99).delay(Duration.ofDays(1)).factor(10).pauseAfter(98, true), Long.MAX_VALUE);
        is(Retry.of(2).delay(Duration.ofDays(999_999_999)).pauseAfter(1, true), Long.MAX_VALUE);
        thrown(IllegalArgumentException.class, () -> Retry.of(0));
        thrown(IllegalArgumentException.class, () -> retry.delay(Duration.ofMillis(-1)));
        thrown(IllegalArgumentException.class, () -> retry.factor(0.5));
        thrown(IllegalArgumentException.class, () -> retry.factor(Double.NaN));

        AtomicInteger asked = new AtomicInteger();
        long began = System.nanoTime();
        is(SERVICE.request().retry(Retry.of(3).delay(Duration.ofMillis(20)).factor(2), () -> failing(asked, 2)).join(), 3);
        is(System.nanoTime() - began >= 60_000_000L, true);
    }

    /** Whoever settles it otherwise ends its try and its pause; so does the end of its scope, and a full request. */
    static void ends() {
        Request request = INLINE.request();
        AtomicInteger asked = new AtomicInteger();
        List<Runnable> tasks = new ArrayList<>();
        Retry patient = Retry.of(3).delay(Duration.ofDays(1));
        Stage<Integer> waits = request.retry(patient, () -> failing(asked, 9));
        is(waits.isDone() + " " + asked.get(), "false 1");
        waits.cancel(false);
        Scope scope = request.scope();
        Stage<Integer> within = scope.retry(patient, () -> failing(asked, 9)), tried = scope.retry(patient, () -> failing(asked, 9), tasks::add);
        scope.end();
        thrown(CancellationException.class, within::join);
        thrown(CancellationException.class, tried::join);
        tasks.forEach(Runnable::run); // too late
        is(asked.get(), 2);
        for (Stage<?> stage : Arrays.asList(waits, within, tried)) {
            is(stage.isCancelled(), true);
        }
        Checks.has(request.history().toString(), "scope");
        request.close();

        Request full = INLINE.request("full");
        for (int k = 0; k < 4096 - 6; k++) {
            full.promise();
        }
        asked.set(0);
        is(thrown(CompletionException.class, full.retry(Retry.of(9), () -> failing(asked, 9))::join).getCause().getClass(), RequestFullException.class);
        is(full.history().stages() <= 4096 && asked.get() == 2, true);
    }
}
