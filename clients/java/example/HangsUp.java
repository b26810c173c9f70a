import cf.store.Functions;
import cf.store.JdbcStore;
import cf.store.StoreException;
import cf.store.StoreService;
import cf.store.StoredFlow;
import cf.store.StoredRequest;
import java.nio.file.Files;
import java.util.concurrent.CancellationException;
import java.util.concurrent.CompletableFuture;
import java.util.concurrent.TimeUnit;

/** A handler whose client hangs up: its framework cancels the future that it gave, and what is open of its request in the store is cancelled. */
public class HangsUp {
    static final StoredFlow FLOW = new StoredFlow("order");
    static final StoredFlow.Step ORDER = FLOW.promise("order"), APPROVAL = FLOW.promise("approval");
    static final StoredFlow.Step CHARGED = ORDER.then("charge");

    static {
        CHARGED.combine(APPROVAL, "ship");
    }

    static StoredRequest begin(StoreService service, long number) {
        try {
            return service.start(FLOW, "order " + number, number);
        } catch (StoreException.Broken older) { // it was begun by an older plan
            return service.open("order " + number);
        }
    }

    static CompletableFuture<Object> handle(StoreService service, long number) {
        StoredRequest request = begin(service, number);
        CompletableFuture<Object> answer = request.stage("ship").toFuture();
        answer.whenCompleteAsync((value, error) -> request.cancelAll()); // also if the framework cancels it
        return answer;
    }

    public static void main(String[] args) throws Exception {
        String address = "jdbc:sqlite:" + Files.createTempDirectory("hangs-up").resolve("orders.db");
        Functions functions = new Functions().with("charge", 1, order -> 100 * (Long) order).with("ship", 1, (cents, by) -> cents + ", approved by " + by);
        try (StoreService service = new StoreService(JdbcStore.open(address), functions)) {
            StoredFlow older = new StoredFlow("order"); // the plan before the program's last change, by which order 16 was begun
            older.promise("cents").combine(older.promise("approval"), "ship");
            service.start(older, "order 16", 1600, "Bob");
            System.out.println(handle(service, 16).get());
            CompletableFuture<Object> answer = handle(service, 17);
            StoredRequest request = service.open("order 17");
            request.stage(CHARGED).get();
            answer.cancel(true); // as a framework does when the client hangs up
            try {
                request.stage(APPROVAL).get(60, TimeUnit.SECONDS);
            } catch (CancellationException last) {
                request.history().toString().lines().filter(line -> line.contains(" ends: ")).map(String::strip).forEach(System.out::println);
            }
        }
    }
}
