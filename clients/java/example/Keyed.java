import cf.store.Functions;
import cf.testing.Orders;
import cf.testing.Report;
import cf.testing.StoreProcess;
import cf.testing.World;
import cf.testing.WorldStore;
import java.util.ArrayList;
import java.util.List;

public class Keyed {
    static void checkout(World world) {
        List<Object> charges = new ArrayList<>();
        Functions functions = new Functions().with("charge", 1, order -> charges.contains(order) || charges.add(order));
        WorldStore store = world.store().killed(1);
        StoreProcess one = store.worker("one", functions), two = store.worker("two", functions);
        one.request("order 17").supply("charge", 17).again(1);
        world.check(() -> charges.size() <= 1, "charged at most once");
    }

    public static void main(String[] args) {
        Report report = Orders.of(Keyed::checkout).seconds(60).run();
        System.out.println(report.failed().size() + " of " + report.orders() + " orders fail, and the others come to the same: "
                + report.whole());
    }
}
