import cf.service.Describe;
import cf.service.Flow;
import cf.service.Request;
import cf.service.Retry;
import cf.service.Service;
import cf.service.Stage;
import java.io.IOException;
import java.time.Duration;
import java.util.Arrays;
import java.util.concurrent.ExecutionException;
import java.util.concurrent.TimeUnit;
import java.util.concurrent.atomic.AtomicInteger;

/** The listings of GUIDE.md, and a run of each. */
public class Guide {
    static final Retry THRICE = Retry.of(3).delay(Duration.ofMillis(100)).factor(2).jitter(true).on(IOException.class);

    static final Flow QUOTE = new Flow("quote");
    static final Flow.Step<Integer> PIECES = QUOTE.promise();
    static final Flow.Step<Integer> PRICE = PIECES.thenApply(pieces -> 4900 * pieces).named("price");
    static final Flow.Step<Integer> POSTAGE = QUOTE.supplyAsync(() -> 500).named("postage");
    static final Flow.Step<Integer> TOTAL = PRICE.thenCombine(POSTAGE, Integer::sum).named("total");

    static int quote(Service service, int pieces) {
        try (Request request = service.start(QUOTE, pieces)) { // the values of the promises, in their order
            return request.stage(TOTAL).orTimeout(5, TimeUnit.SECONDS).join();
        }
    }

    static final Describe SAFE = value -> value instanceof Throwable ? Describe.ALL.describe(value) : Describe.TYPES.describe(value);

    private static int twice(AtomicInteger asked) throws IOException {
        if (asked.incrementAndGet() < 3) {
            throw new IOException("away");
        }
        return asked.get();
    }

    private static void holds(boolean it) {
        if (!it) {
            throw new AssertionError();
        }
    }

    private static boolean gives(Stage<?> stage, Object value) throws Exception {
        return stage.get(20, TimeUnit.SECONDS).equals(value);
    }

    private static boolean fails(Stage<?> stage, Class<? extends Throwable> by) throws Exception {
        try {
            stage.get(20, TimeUnit.SECONDS);
            return false;
        } catch (ExecutionException error) {
            return by.isInstance(error.getCause());
        }
    }

    public static void main(String[] args) throws Exception {
        Service service = new Service().withDescribe(SAFE);
        try (Request request = service.request("guide")) {
            AtomicInteger asked = new AtomicInteger();
            holds(gives(request.retry(THRICE, () -> "try " + twice(asked)), "try 3") && fails(request.retry(THRICE, () -> Integer.parseInt("x")), NumberFormatException.class));
            Stage<Integer> open = request.promise(), seven = request.completedFuture(7);
            holds(gives(request.all(seven, open.completeOnTimeout(4, 0, TimeUnit.SECONDS)), Arrays.asList(7, 4)));
            Stage<Integer> failed = request.failedFuture(new IllegalStateException("away"));
            holds(fails(request.all(request.promise(), failed), IllegalStateException.class) && gives(request.first(failed, seven), 7));
            holds(gives(request.quorum(2, failed, seven, open), Arrays.asList(7, 4)) && fails(request.first(failed), IllegalStateException.class));
            String told = request.history().toString();
            holds(told.contains("2 try 1 ends: java.io.IOException: away") && told.contains("which gave java.lang.String of 5"));
        }
        holds(quote(service, 2) == 10300);
        System.out.println("all that the guide shows holds");
    }
}
