import cf.service.Request;
import cf.service.Service;
import cf.service.Stage;
import java.util.concurrent.TimeUnit;

public class First {
    public static void main(String[] args) {
        try (Request request = new Service().request("order 17")) {
            Stage<Integer> cents = request.supplyAsync(() -> 4900).named("load");
            Stage<String> paid = cents.thenApply(First::charge).named("charge").orTimeout(5, TimeUnit.SECONDS);
            System.out.println(paid.exceptionally(error -> "sorry, " + error.getCause().getMessage()).named("recover").join());
            request.history().toString().lines().filter(line -> line.contains(" ends: ")).map(String::strip).forEach(System.out::println);
        }
    }

    static String charge(int cents) {
        throw new IllegalStateException("card declined");
    }
}
