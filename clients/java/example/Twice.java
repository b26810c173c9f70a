import cf.service.Stage;
import cf.testing.Orders;
import cf.testing.World;
import java.util.ArrayList;
import java.util.List;
import java.util.concurrent.TimeUnit;

public class Twice {
    static void checkout(World world) {
        List<Integer> charges = new ArrayList<>();
        Stage<Integer> price = world.service().request("order 17").adopt(world.arrives(4900, "price"));
        Stage<Boolean> paid = price.thenApply(charges::add).named("charge").orTimeout(2, TimeUnit.SECONDS);
        world.check(() -> charges.size() <= 1, "charged at most once");
        world.settles(paid.exceptionally(error -> charges.add(4900)).named("charge again"));
    }

    public static void main(String[] args) {
        Orders.of(Twice::checkout).run().failed().forEach(System.out::println);
    }
}
