package cf.service;

import com.sun.management.OperatingSystemMXBean;
import com.sun.net.httpserver.HttpExchange;
import com.sun.net.httpserver.HttpServer;
import java.io.BufferedInputStream;
import java.io.IOException;
import java.io.InputStream;
import java.io.UncheckedIOException;
import java.lang.management.ManagementFactory;
import java.net.InetAddress;
import java.net.InetSocketAddress;
import java.net.Socket;
import java.nio.charset.StandardCharsets;
import java.util.Arrays;
import java.util.concurrent.CompletableFuture;
import java.util.concurrent.ExecutorService;
import java.util.concurrent.Executors;
import java.util.concurrent.ScheduledExecutorService;
import java.util.concurrent.TimeUnit;
import java.util.concurrent.atomic.AtomicBoolean;
import java.util.concurrent.atomic.AtomicLong;
import java.util.function.IntSupplier;

/**
 * How many requests a second an HTTP handler answers with cf.service, beside the JDK's class and in turns with it within one run. The handler
 * asks eight backends, each with a limit and an answer to fall back on, and puts their answers together. The server is the JDK's own; its
 * clients are threads of the same process, each with one connection. bench/clients/java-service runs it.
 */
public final class Handler {
    private static final int PARTS = 8, CLIENTS = 4;
    private static final ExecutorService POOL = Executors.newFixedThreadPool(4, Handler::daemon);
    private static final ScheduledExecutorService LATER = Executors.newScheduledThreadPool(1, Handler::daemon);
    private static final Service SERVICE = new Service(POOL);
    private static final OperatingSystemMXBean SYSTEM = (OperatingSystemMXBean) ManagementFactory.getOperatingSystemMXBean();

    private Handler() {}

    public static void main(String[] args) throws Exception {
        int rounds = Integer.getInteger("handler.rounds", 9);
        HttpServer server = HttpServer.create(new InetSocketAddress(InetAddress.getLoopbackAddress(), 0), 0);
        server.setExecutor(Executors.newFixedThreadPool(CLIENTS, Handler::daemon));
        server.createContext("/once/jdk", exchange -> answer(exchange, () -> jdkAtOnce()));
        server.createContext("/once/stages", exchange -> answer(exchange, () -> stagesAtOnce()));
        server.createContext("/1ms/jdk", exchange -> answer(exchange, () -> jdkLater()));
        server.createContext("/1ms/stages", exchange -> answer(exchange, () -> stagesLater()));
        server.start();
        int port = server.getAddress().getPort();
        System.out.printf("%n%-36s %9s %9s %8s%n", "requests a second by a handler", "best", "median", "us each");
        compare(port, rounds, "backends at once", "/once/");
        compare(port, rounds, "backends after 1 ms", "/1ms/");
        System.exit(0);
    }

    private static Thread daemon(Runnable run) {
        Thread thread = new Thread(run);
        thread.setDaemon(true);
        return thread;
    }

    // The handlers.

    private static void answer(HttpExchange exchange, IntSupplier page) throws IOException {
        byte[] said = Integer.toString(page.getAsInt()).getBytes(StandardCharsets.US_ASCII);
        exchange.sendResponseHeaders(200, said.length);
        exchange.getResponseBody().write(said);
        exchange.close();
    }

    private static int jdkAtOnce() {
        CompletableFuture<?>[] parts = new CompletableFuture<?>[PARTS];
        for (int k = 0; k < PARTS; k++) {
            int part = k;
            parts[k] = CompletableFuture.supplyAsync(() -> part, POOL).orTimeout(1, TimeUnit.SECONDS).exceptionally(error -> -1);
        }
        return CompletableFuture.allOf(parts).thenApply(all -> sum(parts)).join();
    }

    private static int stagesAtOnce() {
        try (Request request = SERVICE.request("page")) {
            CompletableFuture<?>[] parts = new CompletableFuture<?>[PARTS];
            for (int k = 0; k < PARTS; k++) {
                int part = k;
                parts[k] = request.supplyAsync(() -> part).orTimeout(1, TimeUnit.SECONDS).exceptionally(error -> -1);
            }
            return request.allOf(parts).thenApply(all -> sum(parts)).join();
        }
    }

    private static int jdkLater() {
        CompletableFuture<?>[] parts = new CompletableFuture<?>[PARTS];
        for (int k = 0; k < PARTS; k++) {
            parts[k] = later(new CompletableFuture<>(), k).orTimeout(1, TimeUnit.SECONDS).exceptionally(error -> -1);
        }
        return CompletableFuture.allOf(parts).thenApply(all -> sum(parts)).join();
    }

    private static int stagesLater() {
        try (Request request = SERVICE.request("page")) {
            CompletableFuture<?>[] parts = new CompletableFuture<?>[PARTS];
            for (int k = 0; k < PARTS; k++) {
                parts[k] = later(request.<Integer>promise(), k).orTimeout(1, TimeUnit.SECONDS).exceptionally(error -> -1);
            }
            return request.allOf(parts).thenApply(all -> sum(parts)).join();
        }
    }

    private static CompletableFuture<Integer> later(CompletableFuture<Integer> promise, int part) {
        LATER.schedule(() -> promise.complete(part), 1, TimeUnit.MILLISECONDS);
        return promise;
    }

    private static int sum(CompletableFuture<?>[] parts) {
        return Arrays.stream(parts).mapToInt(part -> (Integer) part.join()).sum();
    }

    // The clients.

    /** Both ways in turns, a second each, after five seconds of each. */
    private static void compare(int port, int rounds, String name, String path) throws Exception {
        String[] ways = {"JDK", "stages"};
        double[][] many = new double[2][rounds], took = new double[2][rounds];
        for (String way : ways) {
            asked(port, path + way.toLowerCase(), 5000);
        }
        for (int round = 0; round < rounds; round++) {
            for (int way = 0; way < 2; way++) {
                long before = SYSTEM.getProcessCpuTime();
                long count = asked(port, path + ways[way].toLowerCase(), 1000);
                many[way][round] = count;
                took[way][round] = (SYSTEM.getProcessCpuTime() - before) / 1000.0 / count;
            }
        }
        for (int way = 0; way < 2; way++) {
            Arrays.sort(many[way]);
            Arrays.sort(took[way]);
            System.out.printf("%-36s %9.0f %9.0f %8.0f   %4.2f %4.2f %4.2f%n", name + ", " + ways[way], many[way][rounds - 1], many[way][rounds / 2],
                    took[way][rounds / 2], many[way][rounds - 1] / many[0][rounds - 1], many[way][rounds / 2] / many[0][rounds / 2],
                    took[way][rounds / 2] / took[0][rounds / 2]);
        }
    }

    /** How many requests the clients were answered within some milliseconds. */
    private static long asked(int port, String path, long millis) throws Exception {
        AtomicBoolean ended = new AtomicBoolean();
        AtomicLong count = new AtomicLong();
        Thread[] clients = new Thread[CLIENTS];
        for (int k = 0; k < CLIENTS; k++) {
            clients[k] = daemon(() -> count.addAndGet(client(port, path, ended)));
            clients[k].start();
        }
        Thread.sleep(millis);
        ended.set(true);
        for (Thread client : clients) {
            client.join();
        }
        return count.get();
    }

    private static long client(int port, String path, AtomicBoolean ended) {
        byte[] asked = ("GET " + path + " HTTP/1.1\r\nHost: localhost\r\n\r\n").getBytes(StandardCharsets.US_ASCII);
        try (Socket socket = new Socket(InetAddress.getLoopbackAddress(), port)) {
            socket.setTcpNoDelay(true);
            InputStream said = new BufferedInputStream(socket.getInputStream());
            long count = 0;
            for (; !ended.get(); count++) {
                socket.getOutputStream().write(asked);
                if (!body(said).equals("28")) {
                    throw new IOException("the handler answered something else");
                }
            }
            return count;
        } catch (IOException error) {
            throw new UncheckedIOException(error);
        }
    }

    /** What stands behind the head of an answer, whose length the head tells. */
    private static String body(InputStream said) throws IOException {
        int length = -1;
        for (String line; !(line = line(said)).isEmpty();) {
            if (line.toLowerCase().startsWith("content-length:")) {
                length = Integer.parseInt(line.substring(15).trim());
            }
        }
        byte[] body = new byte[length];
        for (int k = 0; k < length; k++) {
            body[k] = (byte) said.read();
        }
        return new String(body, StandardCharsets.US_ASCII);
    }

    private static String line(InputStream said) throws IOException {
        StringBuilder line = new StringBuilder();
        for (int next; (next = said.read()) != '\n';) {
            if (next < 0) {
                throw new IOException("the connection was closed");
            }
            if (next != '\r') {
                line.append((char) next);
            }
        }
        return line.toString();
    }
}
