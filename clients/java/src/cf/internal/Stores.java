package cf.internal;

import cf.store.Functions;
import cf.store.Store;
import java.sql.Connection;

/** Makes what a search over a store needs. {@link WatchedServices#stores} gives it. */
public interface Stores {
    /** A service that has another host. The lease is in nanoseconds. */
    Serving service(Store store, Functions functions, int threads, long lease, boolean takesAll, Host host);

    /** A reader of a request that stands in a store. */
    RequestReader reader(Store store, Store.Opened opened);

    /** A connection as a transactional function has it: it refuses what ends the transaction. */
    Connection guardConnection(Connection db);

    /** The stage that a word claims, or -1 where it is no claim. */
    int claimedStage(long word);
}
