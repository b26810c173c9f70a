import cf.service.Request;
import cf.service.Service;
import cf.service.SpanFile;
import cf.service.Stage;
import java.nio.file.Files;
import java.nio.file.Path;

public class Traced {
    public static void main(String[] args) throws Exception {
        Path file = Files.createTempFile("spans", ".jsonl");
        file.toFile().deleteOnExit();
        Service service = new Service().onEnd(new SpanFile(file, "shop"));
        try (Request request = service.request("order 17")) {
            Stage<Integer> cents = request.supplyAsync(() -> 4900).named("load");
            cents.thenApply(Traced::charge).named("charge").handle((paid, error) -> "told").named("tell").join();
            request.history().spans().forEach(span -> System.out.println(span.status() + " " + span.name()));
        }
    }

    static String charge(int cents) {
        throw new IllegalStateException("card declined");
    }
}
