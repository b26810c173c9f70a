package cf.internal;

import cf.service.Service;
import cf.store.Functions;
import java.util.concurrent.Executor;
import java.util.function.BiFunction;

/** Makes services that are watched, and those over stores that a search leads. */
public final class WatchedServices {
    private static volatile BiFunction<Executor, Watch, Service> maker;
    private static volatile Stores stores;

    private WatchedServices() {}

    /** {@code Service} sets how services are made. */
    public static void setMaker(BiFunction<Executor, Watch, Service> by) {
        maker = by;
    }

    /** A service that this watch runs. The executor gets tasks that are no stage's. */
    public static Service newService(Executor executor, Watch watch) {
        if (maker == null) {
            new Service(executor);
        }
        return maker.apply(executor, watch);
    }

    /** {@code Functions} sets how services over stores are made. */
    public static void setStores(Stores by) {
        stores = by;
    }

    /** Makes services over stores. */
    public static Stores stores() {
        if (stores == null) {
            new Functions();
        }
        return stores;
    }
}
