package cf.service;

import static cf.service.Checks.await;
import static cf.service.Checks.is;
import static cf.service.Checks.SERVICE;
import static cf.service.Checks.thrown;

import java.util.ArrayList;
import java.util.Collections;
import java.util.List;
import java.util.concurrent.CompletableFuture;
import java.util.concurrent.CountDownLatch;

/** A request with no room for one more stage, and one that goes on in further requests. */
final class FullRequestsTest {
    private FullRequestsTest() {}

    /** One stage too many throws and changes nothing; what is there goes on to its end. */
    static void full() {
        Request fullRequest = SERVICE.request("full");
        Stage<Integer> firstOfFull = fullRequest.promise();
        List<Stage<Integer>> stages = new ArrayList<>();
        stages.add(firstOfFull);
        while (stages.size() < 4096) {
            stages.add(stages.get(stages.size() - 1).thenApply(x -> x + 1));
        }
        Stage<Integer> lastThatFits = stages.get(4095);
        int events = fullRequest.history().events();
        is(thrown(RequestFullException.class, () -> lastThatFits.thenApply(x -> x)).getMessage().contains("\"full\""), true);
        thrown(RequestFullException.class, fullRequest::promise);
        thrown(RequestFullException.class, () -> fullRequest.adopt(new CompletableFuture<>()));
        thrown(RequestFullException.class, () -> lastThatFits.thenCombine(new CompletableFuture<>(), (x, y) -> x));
        is(fullRequest.history().events(), events);
        firstOfFull.complete(0);
        is(lastThatFits.join(), 4095);
        is(fullRequest.history().stages(), 4096);
        is(fullRequest.next(), null);
        Request nearly = SERVICE.request();
        for (int k = 0; k < 4095; k++) {
            nearly.promise();
        }
        Stage<Integer> done = nearly.completedFuture(1);
        thrown(RequestFullException.class, () -> done.thenCompose(x -> done));
        is(nearly.history().stages(), 4096);
        Request almost = SERVICE.request();
        Stage<?>[] all = new Stage<?>[4090];
        for (int k = 0; k < all.length; k++) {
            all[k] = almost.promise();
        }
        thrown(RequestFullException.class, () -> almost.allOf(all));
        is(almost.history().stages(), 4090);
    }

    static void goesOn() {
        Request fullRequest = SERVICE.request().continueInNext();
        Stage<Integer> firstOfFull = fullRequest.promise(), lastThatFits = firstOfFull;
        for (int k = 0; k < 10_000; k++) {
            lastThatFits = lastThatFits.thenApply(x -> x + 1);
        }
        firstOfFull.complete(0);
        is(lastThatFits.join(), 10_000);
        int count = 0;
        for (Request each = fullRequest; each != null; each = each.next()) {
            count++;
        }
        is(count, 3);
        is(firstOfFull.thenCombine(lastThatFits, Integer::sum).join(), 10_000);
        Request ofService = new Service().withNextRequests().withDescribe(Describe.NOTHING).request();
        for (int k = 0; k <= 4096; k++) {
            ofService.promise();
        }
        is(ofService.next().history().stages(), 1);
    }

    /** Threads that find a request full at the same time go on in one further request. */
    static void goesOnByMany() throws Exception {
        int threads = 4, each = 2100;
        for (int round = 0; round < 20; round++) {
            Request first = SERVICE.request().continueInNext();
            CountDownLatch ended = new CountDownLatch(threads);
            for (int k = 0; k < threads; k++) {
                new Thread(() -> {
                    for (int n = 0; n < each; n++) {
                        first.promise();
                    }
                    ended.countDown();
                }).start();
            }
            await(ended);
            int stages = 0;
            for (Request at = first; at != null; at = at.next()) {
                stages += at.history().stages();
            }
            is(stages, threads * each);
        }
    }

    /** What hangs on a future for a stage that found no place, since others were quicker, is let go. */
    static void letsGoWithoutPlace() throws Exception {
        int threads = 4, each = 600;
        for (int round = 0; round < 40; round++) {
            Request first = SERVICE.request().continueInNext();
            Stage<Integer> own = first.promise();
            List<CompletableFuture<Integer>> others = Collections.synchronizedList(new ArrayList<>());
            CountDownLatch ended = new CountDownLatch(threads);
            for (int k = 0; k < threads; k++) {
                new Thread(() -> {
                    for (int n = 0; n < each; n++) {
                        CompletableFuture<Integer> other = new CompletableFuture<>();
                        own.applyToEither(other, x -> x);
                        others.add(other);
                    }
                    ended.countDown();
                }).start();
            }
            await(ended);
            own.complete(1);
            for (CompletableFuture<Integer> other : others) {
                is(other.getNumberOfDependents(), 0);
            }
        }
    }
}
