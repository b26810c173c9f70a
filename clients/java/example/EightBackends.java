import cf.service.History;
import cf.service.Request;
import cf.service.Scope;
import cf.service.Service;
import cf.service.Stage;
import com.sun.net.httpserver.HttpExchange;
import com.sun.net.httpserver.HttpServer;
import java.io.IOException;
import java.io.OutputStream;
import java.net.InetSocketAddress;
import java.net.Socket;
import java.net.URL;
import java.time.Duration;
import java.util.concurrent.BlockingQueue;
import java.util.concurrent.CountDownLatch;
import java.util.concurrent.ExecutionException;
import java.util.concurrent.ExecutorService;
import java.util.concurrent.Executors;
import java.util.concurrent.LinkedBlockingQueue;
import java.util.concurrent.TimeUnit;
import java.util.concurrent.TimeoutException;
import java.util.stream.IntStream;

/** A handler that asks eight backends, and is asked three times: for what one of them has, for what none has, and by a client that hangs up. */
public class EightBackends {
    static final ExecutorService POOL = Executors.newCachedThreadPool();
    static final BlockingQueue<History> OVER = new LinkedBlockingQueue<>();
    static final Service SERVICE = new Service(POOL).withInterrupts().onEnd(OVER::add);
    static final CountDownLatch ASKED = new CountDownLatch(8);

    @SuppressWarnings("unchecked")
    static void handle(HttpExchange exchange) throws IOException {
        String item = exchange.getRequestURI().getQuery();
        try (Request request = SERVICE.request(item); Scope scope = request.scope(Duration.ofSeconds(60))) {
            Stage<String>[] quotes = IntStream.rangeClosed(1, 8).mapToObj(k -> scope.supplyAsync(() -> ask(k, item))
                    .named("backend " + k).orTimeout(30, TimeUnit.SECONDS)).toArray(Stage[]::new);
            Stage<String> quote = scope.endsWith(scope.first(quotes).exceptionally(error -> "nobody has it").named("quote"));
            exchange.sendResponseHeaders(200, 0);
            send(exchange.getResponseBody(), quote); // throws if the client hangs up
        } finally {
            exchange.close();
        }
    }

    /** Sends a space now and then, so that it sees whether the client is there, and then the quote. */
    static void send(OutputStream body, Stage<String> quote) throws IOException {
        for (boolean isSent = false; !isSent;) {
            try {
                body.write(quote.get(20, TimeUnit.MILLISECONDS).getBytes());
                isSent = true;
            } catch (TimeoutException waits) {
                body.write(' ');
                body.flush();
            } catch (InterruptedException | ExecutionException stopped) {
                throw new IOException(stopped);
            }
        }
    }

    static String ask(int backend, String item) {
        if (item.equals("rare")) {
            throw new IllegalStateException("out of stock");
        }
        ASKED.countDown();
        try {
            ASKED.await();
            if (item.equals("common") && backend == 3) {
                return "4900 cents";
            }
            Thread.sleep(600_000);
            return "too late";
        } catch (InterruptedException stopped) {
            throw new IllegalStateException(stopped);
        }
    }

    static void tell(String answer) throws InterruptedException {
        String[] lines = OVER.take().toString().split("\n");
        long cancelled = IntStream.range(0, lines.length).filter(k -> lines[k].matches(" *\\d+ backend \\d ends: cancelled")).count();
        System.out.println(answer + "; cancelled: " + cancelled);
    }

    public static void main(String[] args) throws Exception {
        HttpServer server = HttpServer.create(new InetSocketAddress("localhost", 0), 0);
        server.createContext("/quote", EightBackends::handle);
        server.setExecutor(POOL);
        server.start();
        int port = server.getAddress().getPort();
        for (String item : new String[] {"common", "rare"}) {
            tell(new String(new URL("http://localhost:" + port + "/quote?" + item).openStream().readAllBytes()).strip());
        }
        try (Socket client = new Socket("localhost", port)) {
            client.getOutputStream().write("GET /quote?none HTTP/1.1\r\nHost: localhost\r\n\r\n".getBytes());
            client.getInputStream().read(); // the answer begins
        }
        tell("the client hangs up");
        server.stop(0);
        POOL.shutdown();
    }
}
