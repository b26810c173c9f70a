import cf.service.Stage;
import cf.testing.Orders;
import cf.testing.Report;
import cf.testing.World;
import java.util.ArrayList;
import java.util.List;
import java.util.concurrent.TimeUnit;

public class Once {
    static void checkout(World world) {
        List<Integer> charges = new ArrayList<>();
        Stage<Integer> price = world.service().request("order 17").adopt(world.arrives(4900, "price"));
        Stage<Boolean> paid = price.orTimeout(2, TimeUnit.SECONDS).thenApply(charges::add).named("charge");
        world.check(() -> charges.size() <= 1, "charged at most once");
        world.settles(paid.exceptionally(error -> charges.add(4900)).named("charge again"));
    }

    public static void main(String[] args) {
        Report report = Orders.of(Once::checkout).run();
        System.out.println(report.failed().size() + " of " + report.orders() + " orders fail, and the others come to the same: "
                + report.whole());
    }
}
