import cf.store.Functions;
import cf.store.JdbcStore;
import cf.store.StoreService;
import cf.store.StoredFlow;
import cf.store.StoredRequest;

public class Order {
    static final StoredFlow FLOW = new StoredFlow("order");
    static final StoredFlow.Step CENTS = FLOW.promise("cents"), APPROVAL = FLOW.promise("approval");
    static final StoredFlow.Step PAID = CENTS.then("charge"), SHIPPED = PAID.combine(APPROVAL, "ship");

    static Object charge(Object cents) {
        System.out.println("charges " + cents);
        return "paid " + cents;
    }

    public static void main(String[] args) throws Exception {
        JdbcStore store = JdbcStore.open("jdbc:sqlite:" + args[0]);
        if (args.length > 1) { // another process, which has no functions
            try (StoreService service = new StoreService(store, new Functions().elsewhere("charge", 1).elsewhere("ship", 1))) {
                System.out.println(service.open("order 17").stage(APPROVAL).complete(args[1]) ? "approved" : "it was approved before");
            }
            return;
        }
        Functions functions = new Functions().with("charge", 1, Order::charge).with("ship", 1, (paid, by) -> paid + ", shipped, approved by " + by);
        try (StoreService service = new StoreService(store, functions)) {
            StoredRequest order = service.start(FLOW, "order 17", 4900);
            System.out.println(order.stage(PAID).get());
            System.out.println(order.stage(APPROVAL).isDone() ? order.stage(SHIPPED).get() : "waits for an approval");
        }
    }
}
