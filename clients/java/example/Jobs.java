import cf.store.Functions;
import cf.store.StoreService;
import java.sql.Connection;
import java.sql.DriverManager;
import java.sql.PreparedStatement;
import java.util.concurrent.ThreadLocalRandom;
import java.util.concurrent.TimeUnit;

/**
 * A worker of {@code conformance/stores/engines jobs}: it works on all requests of a store until it is killed. Its functions are those of
 * {@code jobs_functions.py}. It is called with the address of the store, and that of the table of effects.
 */
public final class Jobs {
    private Jobs() {}

    private static Object outside(String effects, Object name) throws Exception {
        Thread.sleep(ThreadLocalRandom.current().nextInt(10));
        try (Connection db = DriverManager.getConnection(effects)) {
            if (effects.startsWith("jdbc:sqlite:")) {
                db.createStatement().execute("pragma busy_timeout = 60000");
            }
            return inside(db, name);
        }
    }

    private static Object inside(Connection db, Object name) throws Exception {
        try (PreparedStatement insert = db.prepareStatement("insert into effect values (?)")) {
            insert.setString(1, (String) name);
            insert.executeUpdate();
        }
        Thread.sleep(ThreadLocalRandom.current().nextInt(10));
        return name;
    }

    /** Works until it is killed. */
    public static void main(String[] args) throws Exception {
        String effects = Address.jdbc(args[1]);
        Functions functions = new Functions().with("outside", 1, name -> outside(effects, name)).with("same", 1, name -> name)
                .with("both", 1, (name, other) -> name).transactional("inside", 1, (db, name) -> inside(db, name.get(0)));
        StoreService.builder(Address.opened(args[0]), functions).threads(2).lease(700, TimeUnit.MILLISECONDS).takesAll(true).build();
        Thread.sleep(Long.MAX_VALUE);
    }
}
