package cf.internal;

import cf.store.Store;
import cf.store.StoreService;
import cf.store.StoredStage;

/** A service over a store, as a search sees it. What it is asked here makes no move. */
public interface Serving {
    StoreService service();

    /** By which others know it. */
    long session();

    boolean isStopped();

    /** Whether it has begun or opened a request. */
    boolean hasRequest(String request);

    /** Whether it is a stage of one of its requests. */
    boolean hasStage(StoredStage stage);

    /** Whether it has given a request up. */
    boolean isBroken(String request);

    /** Whether one of its threads acts on a timer. */
    boolean isFiring(Store.Timer timer);

    /** Whether it has a stage's function. */
    boolean knowsFunction(RequestReader all, int stage);

    /** Whether somebody here waits for a stage of a request that is settled by all words, or a claim was granted that it doesn't know of. */
    boolean hasUntold(String request, RequestReader all);

    /** Puts a sign of life and reads those of others, if it is time to. */
    void beat();

    /** The same, and looks for timers and news. */
    void runRound();
}
