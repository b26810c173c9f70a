/**
 * Requests in SQLite, PostgreSQL and etcd, which outlive their processes: a {@link cf.store.StoreService} opens them, and calls their functions,
 * which {@link cf.store.Functions} knows by name. Processes in Java, Python and Rust may share them.
 *
 * <pre>{@code
 * Functions functions = new Functions().with("charge", 1, cents -> "paid " + cents);
 * try (StoreService service = new StoreService(JdbcStore.open("jdbc:sqlite:orders.db"), functions)) {
 *     StoredFlow flow = new StoredFlow("order");
 *     StoredFlow.Step paid = flow.promise("cents").then("charge");
 *     System.out.println(service.start(flow, "order 17", 4900).stage(paid).get());     // run twice, it pays once
 * }
 * }</pre>
 *
 * <p>docs/STORES.md goes through the tasks.
 */
package cf.store;
