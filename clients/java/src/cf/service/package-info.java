/**
 * Completable futures with a flight recorder: each {@link cf.service.Stage} is a {@link java.util.concurrent.CompletableFuture} whose state
 * is decided by a machine of the proved library, and each {@link cf.service.Request} keeps one {@link cf.service.History} of all its stages.
 *
 * <pre>{@code
 * Service service = new Service(executor);                                             // one for a process
 * try (Request request = service.request("order 17")) {                                // one for each thing that you would look up
 *     Stage<Integer> cents = request.supplyAsync(() -> 4900).named("load");
 *     Stage<String> paid = cents.thenApply(Shop::charge).named("charge").orTimeout(5, TimeUnit.SECONDS);
 *     System.out.println(paid.join());
 *     System.out.println(request.history().line());
 * }
 * }</pre>
 *
 * <p>clients/java/GUIDE.md goes through the tasks.
 */
package cf.service;
