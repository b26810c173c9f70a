package cf.service;

import java.io.IOException;
import java.nio.file.Files;
import java.nio.file.Paths;
import java.util.ArrayList;
import java.util.List;
import java.util.concurrent.CompletableFuture;
import java.util.function.Supplier;

/**
 * What a request takes outside the heap that nobody closes, by the resident memory of a process whose heap is all resident before: bytes a
 * request while its stages are pending, and once all are settled. A request is a promise with a chain behind it. The JDK's stages, which take
 * nothing there, are measured in the same way: what they are told to take is the error. bench/clients/java-service runs it.
 */
public final class Outside {
    private static final long MEASURED = 32 << 20; // bytes or more of all requests, so that the error is small beside them
    private static final Service SERVICE = new Service(Runnable::run);
    private static final List<Object> KEPT = new ArrayList<>();

    private Outside() {}

    public static void main(String[] args) throws IOException {
        int stages = Integer.parseInt(args[0]), many = (int) (MEASURED / (8000 + 90L * stages));
        boolean ours = args[1].equals("stages");
        Supplier<CompletableFuture<Integer>> chain = ours ? () -> ours(stages) : () -> chain(new CompletableFuture<>(), stages);
        for (int k = 0; k < 2000 / stages + 2; k++) {
            chain.get().complete(1);
        }
        long before = resident();
        List<CompletableFuture<Integer>> firsts = new ArrayList<>();
        for (int k = 0; k < many; k++) {
            firsts.add(chain.get());
        }
        long pending = resident() - before;
        firsts.forEach(first -> first.complete(1));
        long settled = resident() - before;
        System.out.printf("%-36s %9d %9d%n", "outside the heap, " + stages + ", " + args[1], pending / many, settled / many);
        System.exit(KEPT.isEmpty() ? 1 : 0);
    }

    private static CompletableFuture<Integer> ours(int stages) {
        Request request = SERVICE.request("chain");
        KEPT.add(request);
        return chain(request.promise(), stages);
    }

    private static CompletableFuture<Integer> chain(CompletableFuture<Integer> first, int stages) {
        CompletableFuture<Integer> last = first;
        for (int k = 1; k < stages; k++) {
            last = last.thenApply(x -> x + 1);
        }
        KEPT.add(last);
        return first;
    }

    /** Bytes of the process that are in memory. */
    private static long resident() throws IOException {
        for (String line : Files.readAllLines(Paths.get("/proc/self/status"))) {
            if (line.startsWith("VmRSS:")) {
                return 1024 * Long.parseLong(line.replaceAll("[^0-9]", ""));
            }
        }
        throw new IOException("/proc/self/status has no VmRSS");
    }
}
