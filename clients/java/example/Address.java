import cf.store.EtcdStore;
import cf.store.JdbcStore;
import cf.store.Store;
import cf.store.StoreException;
import java.net.URI;

/** The address of a store of {@code conformance/stores/engines}, which has one form for all languages. */
final class Address {
    private Address() {}

    /** That of SQLite or PostgreSQL, for JDBC. */
    static String jdbc(String address) {
        if (address.startsWith("sqlite:///")) {
            return "jdbc:sqlite:" + address.substring("sqlite:///".length());
        }
        URI uri = URI.create(address);
        return "jdbc:postgresql://" + uri.getHost() + ":" + uri.getPort() + uri.getPath() + "?user=" + uri.getUserInfo();
    }

    /** The store, once it answers. */
    static Store opened(String address) throws InterruptedException {
        while (true) {
            try {
                return address.startsWith("etcd://") ? EtcdStore.open(address.substring("etcd://".length())) : JdbcStore.open(jdbc(address));
            } catch (StoreException.Unknown silent) {
                Thread.sleep(50);
            }
        }
    }
}
