package cf.testing;

/** What is tried in every order. It is called once for each, makes all anew that it uses, and does the same each time. */
@FunctionalInterface
public interface Scenario {
    /** Does what is tried, by what the world gives. What it throws fails the order. */
    void run(World world) throws Exception;
}
