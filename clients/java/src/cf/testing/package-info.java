/**
 * A service's own code in every order: which ready function is called next, what arrives when, whether a limit passes before.
 *
 * <pre>{@code
 * Orders.check(world -> {                           // called once for each order
 *     List<Integer> charges = new ArrayList<>();
 *     Stage<Integer> price = world.service().request("order 17").adopt(world.arrives(4900, "price"));
 *     Stage<?> paid = price.thenApply(charges::add).orTimeout(2, SECONDS).exceptionally(error -> charges.add(4900));
 *     world.check(() -> charges.size() <= 1, "charged at most once");
 *     world.settles(paid);
 * });
 * }</pre>
 *
 * <p>docs/TESTING.md leads through it. {@link cf.testing.Orders} is what is called, and {@link cf.testing.World} what a test
 * is given.
 */
package cf.testing;
