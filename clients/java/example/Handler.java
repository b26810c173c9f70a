import cf.service.Request;
import cf.service.Scope;
import cf.service.Service;
import cf.service.Stage;
import com.sun.net.httpserver.HttpExchange;
import com.sun.net.httpserver.HttpServer;
import java.io.IOException;
import java.io.UncheckedIOException;
import java.net.InetSocketAddress;
import java.util.concurrent.CompletableFuture;
import java.util.concurrent.Executors;
import java.util.concurrent.TimeUnit;

public class Handler {
    static final Service SERVICE = new Service(Executors.newFixedThreadPool(8));

    public static void main(String[] args) throws IOException {
        HttpServer server = HttpServer.create(new InetSocketAddress("localhost", Integer.parseInt(args[0])), 0);
        server.createContext("/quote", Handler::handle);
        server.start();
        System.out.println("http://localhost:" + server.getAddress().getPort());
    }

    static void handle(HttpExchange exchange) {
        long wait = Long.parseLong(exchange.getRequestURI().getQuery()); // of the second backend, in ms
        Request request = SERVICE.request("quote " + wait);
        Scope scope = request.scope();
        Stage<Integer> price = scope.supplyAsync(() -> 4900).named("price");
        Stage<Integer> postage = scope.supplyAsync(() -> 500, request.delayedExecutor(wait, TimeUnit.MILLISECONDS)).named("postage");
        Stage<Integer> total = price.thenCombine(postage, Integer::sum).named("total").orTimeout(1, TimeUnit.SECONDS);
        scope.endsWith(total); // but not the answer, which isn't of it
        Stage<Boolean> sent = request.allOf(total).handleAsync((none, error) -> error == null ? send(exchange, 200, total.join() + " cents\n")
                : send(exchange, 504, "no quote in time\n")).named("send");
        CompletableFuture.allOf(sent).whenComplete((none, error) -> { // (by the JDK's class: it is no stage of the request)
            System.out.println(request.history().line());
            request.close();
        });
    }

    static boolean send(HttpExchange exchange, int status, String text) {
        try {
            exchange.sendResponseHeaders(status, text.length());
            exchange.getResponseBody().write(text.getBytes());
        } catch (IOException gone) {
            throw new UncheckedIOException(gone);
        } finally {
            exchange.close();
        }
        return true;
    }
}
