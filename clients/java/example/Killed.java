import cf.store.Functions;
import cf.testing.Orders;
import cf.testing.StoreProcess;
import cf.testing.World;
import cf.testing.WorldStore;
import java.util.ArrayList;
import java.util.List;

public class Killed {
    static void checkout(World world) {
        List<Object> charges = new ArrayList<>();
        Functions functions = new Functions().with("charge", 1, order -> charges.add(order));
        WorldStore store = world.store().killed(1);
        StoreProcess one = store.worker("one", functions), two = store.worker("two", functions);
        one.request("order 17").supply("charge", 17).again(1);
        world.check(() -> charges.size() <= 1, "charged at most once");
    }

    public static void main(String[] args) {
        Orders.of(Killed::checkout).seconds(60).run().failed().forEach(System.out::println);
    }
}
