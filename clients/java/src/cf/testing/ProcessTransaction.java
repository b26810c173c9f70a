package cf.testing;

import cf.store.Store;
import java.sql.Connection;
import java.util.ArrayList;
import java.util.List;

/**
 * A transaction of a process. What its function does by the connection comes to stand with the put, or not at all. From {@link #append} on it has
 * its place of the row, and others wait with their puts to that row until it has ended.
 */
final class ProcessTransaction implements Store.Transaction {
    final StoreProcess process;
    final List<Effect> effects = new ArrayList<>();
    /** Null before it has a place. */
    Store.Put put;
    /** Its commit is on its way, so it ends once that has come. */
    boolean isOnItsWay;
    private final WorldStore world;

    ProcessTransaction(WorldStore world, StoreProcess process) {
        this.world = world;
        this.process = process;
    }

    @Override
    public Connection connection() {
        return EffectConnection.reportingTo(effects::add);
    }

    @Override
    public boolean isAway() {
        return false;
    }

    @Override
    public boolean append(Store.Put its) {
        return world.takePlace(this, its);
    }

    @Override
    public void commit() {
        world.commit(this);
    }

    @Override
    public void close() {
        if (!isOnItsWay) {
            world.rows.releasePlace(this);
        }
    }
}
