package cf.service;

import static cf.service.Checks.INLINE;
import static cf.service.Checks.is;
import static cf.service.Checks.SERVICE;
import static cf.service.Checks.thrown;

import cf.service.Checks.Broken;
import java.util.ArrayList;
import java.util.Arrays;
import java.util.Collections;
import java.util.List;
import java.util.Random;
import java.util.concurrent.CancellationException;
import java.util.concurrent.CompletableFuture;
import java.util.concurrent.CompletionException;
import java.util.concurrent.CountDownLatch;
import java.util.concurrent.ExecutionException;

/** The first success, all or the first failure, and a quorum. */
final class JoinsTest {
    private JoinsTest() {}

    private static List<Stage<Integer>> promises(Request request, int count) {
        List<Stage<Integer>> promises = new ArrayList<>();
        for (int k = 0; k < count; k++) {
            promises.add(request.promise());
        }
        return promises;
    }

    /** A value ends it, however many have failed before. If all fail, the last exception has the others. */
    static void first() throws Exception {
        Request request = INLINE.request();
        List<Stage<Integer>> some = promises(request, 3);
        Stage<Integer> won = request.first(some.get(0), some.get(1), some.get(2));
        some.get(0).completeExceptionally(new Broken());
        is(won.isDone(), false);
        some.get(2).complete(7);
        is(won.join(), 7);
        some.get(1).complete(8);
        is(Arrays.asList(won.join(), request.first(some.get(1), some.get(2)).join(), won.name()), Arrays.asList(7, 7, "first"));

        List<Stage<Integer>> parts = promises(request, 3);
        Broken one = new Broken(), two = new Broken();
        Stage<Integer> lost = request.first(parts.get(0), parts.get(1), parts.get(2), parts.get(0));
        parts.get(2).completeExceptionally(two);
        parts.get(1).cancel(false);
        is(lost.isDone(), false);
        parts.get(0).completeExceptionally(one);
        is(thrown(CompletionException.class, lost::join).getCause(), one);
        Throwable cause = thrown(ExecutionException.class, lost::get).getCause();
        is(cause, one);
        is(cause.getSuppressed().length + " " + cause.getSuppressed()[1], "2 " + two);
        is(cause.getSuppressed()[0].getClass(), CancellationException.class);
        is(lost.exceptionally(error -> 5).join(), 5);
        thrown(IllegalArgumentException.class, request::first);
    }

    /** It ends at once where one fails. */
    static void all() {
        Request request = INLINE.request();
        List<Stage<Integer>> some = promises(request, 3);
        Stage<List<Integer>> values = request.all(some.get(0), some.get(1), some.get(0));
        some.get(1).complete(null);
        some.get(0).complete(1);
        is(values.join(), Arrays.asList(1, null, 1));
        Stage<List<Integer>> failed = request.all(some.get(0), request.promise(), some.get(2));
        Broken broken = new Broken();
        some.get(2).completeExceptionally(broken);
        is(thrown(CompletionException.class, failed::join).getCause(), broken);
        is(request.all().join(), Collections.emptyList());
        int stages = request.history().stages();
        thrown(NullPointerException.class, () -> request.all(some.get(0), null));
        is(request.history().stages(), stages);
    }

    /** As many as are wanted, or too few. */
    static void quorum() {
        Request request = INLINE.request();
        List<Stage<Integer>> some = promises(request, 4);
        Stage<List<Integer>> votes = request.quorum(2, some.get(0), some.get(1), some.get(2));
        some.get(0).completeExceptionally(new Broken());
        some.get(2).complete(2);
        is(votes.isDone(), false);
        some.get(1).complete(1);
        is(votes.join(), Arrays.asList(1, 2));
        Stage<List<Integer>> lost = request.quorum(2, some.get(1), some.get(3), request.promise(), some.get(3));
        Broken broken = new Broken();
        some.get(3).completeExceptionally(broken);
        is(lost.isDone(), false);
        lost = request.quorum(2, some.get(3), request.promise(), some.get(3), some.get(0));
        is(thrown(CompletionException.class, lost::join).getCause(), broken);
        is(request.quorum(2, some.get(2), some.get(2), request.promise()).join(), Arrays.asList(2, 2));
        thrown(IllegalArgumentException.class, () -> request.quorum(0, some.get(0)));
        thrown(IllegalArgumentException.class, () -> request.quorum(2, some.get(0)));
    }

    /** Joins of joins, of other requests and of other futures; who gives one up; a request that is full. */
    static void others() {
        Request request = INLINE.request(), other = INLINE.request();
        CompletableFuture<Integer> future = new CompletableFuture<>();
        Stage<Integer> outside = other.promise(), part = request.promise();
        Stage<Integer> won = request.first(future, outside, request.first(part));
        outside.complete(3);
        is(won.join(), 3);
        is(future.getNumberOfDependents(), 0);
        Stage<Integer> left = request.first(part);
        is(left.cancel(false), true);
        is(part.isDone(), false);

        Request full = INLINE.request("full");
        Stage<Integer> last = null;
        for (int k = 0; k < 4095; k++) {
            last = full.promise();
        }
        Stage<Integer> source = last;
        thrown(RequestFullException.class, () -> full.all(source));
        Request further = INLINE.request("further").continueInNext();
        for (int k = 0; k < 4096; k++) {
            last = further.promise();
        }
        Stage<List<Integer>> behind = further.all(last, last);
        last.complete(5);
        is(behind.join(), Arrays.asList(5, 5));
    }

    /** A request that is closed and opened again knows its joins. */
    static void closed() {
        Request request = INLINE.request();
        List<Stage<Integer>> some = promises(request, 3);
        Stage<List<Integer>> votes = request.quorum(2, some.get(0), some.get(1), some.get(2));
        some.get(0).complete(4);
        request.close();
        some.get(2).complete(6);
        is(votes.join(), Arrays.asList(4, 6));
    }

    /** In histories the relay settles a join, and its words do the same again. A meter doesn't tell that it waits. */
    static void told() throws Exception {
        Meter meter = new Meter();
        Service service = new Service(Runnable::run).withMeter(meter);
        Request request = service.request("votes");
        List<Stage<Integer>> some = promises(request, 2);
        request.first(some.get(0), some.get(1));
        is(meter.openRequests().get(0).waits().size(), 2);
        some.get(1).complete(1);
        Checks.has(request.history().toString(), "relay completes 2 1 of 2 with 1");
        Checks.fits(request.history().account());
    }

    /** Threads that settle parts at once: a join ends as its parts say. */
    static void inThreads() throws Exception {
        Random random = new Random(7);
        for (int seed = 0; seed < 200; seed++) {
            Request request = SERVICE.request();
            int count = 1 + random.nextInt(5), wanted = 1 + random.nextInt(count), values = 0;
            List<Stage<Integer>> parts = promises(request, count);
            @SuppressWarnings({"unchecked", "rawtypes"})
            Stage<Integer>[] row = parts.toArray(new Stage[0]);
            List<Stage<?>> joins = Arrays.asList(request.quorum(wanted, row), request.first(row), request.all(row));
            List<Thread> threads = new ArrayList<>();
            CountDownLatch begin = new CountDownLatch(1);
            for (Stage<Integer> part : parts) {
                boolean isValue = random.nextInt(3) > 0;
                values += isValue ? 1 : 0;
                threads.add(new Thread(() -> {
                    Checks.await(begin);
                    if (isValue) {
                        part.complete(1);
                    } else {
                        part.completeExceptionally(new Broken());
                    }
                }));
            }
            threads.forEach(Thread::start);
            begin.countDown();
            List<Boolean> ends = new ArrayList<>();
            for (Stage<?> join : joins) {
                ends.add(join.handle((value, error) -> error == null).join());
            }
            for (Thread thread : threads) {
                thread.join();
            }
            is(ends, Arrays.asList(values >= wanted, values > 0, values == count));
        }
    }
}
