package cf.store;

import java.util.LinkedHashMap;
import java.util.Map;
import java.util.concurrent.Executor;

/**
 * What of a context goes along with functions that any process may call: that of the place where each was attached, and of a flow that of the place
 * where the request was begun. It stands in the store beside the stage. All processes that work on these requests have the same ones, in whichever
 * language: Python's {@code Variables(tenant=TENANT)} carries what this one does:
 *
 * <pre>{@code
 * StoredContexts tenant = new StoredContexts() {
 *     public Map<String, ?> capture() {
 *         return Collections.singletonMap("tenant", MDC.get("tenant"));
 *     }
 *     public Executor restore(Map<String, Object> carried) {
 *         return act -> {
 *             try (MDC.MDCCloseable there = MDC.putCloseable("tenant", (String) carried.get("tenant"))) {
 *                 act.run();
 *             }
 *         };
 *     }
 * };
 * }</pre>
 */
public interface StoredContexts {
    /** Takes from the context of the calling thread what is to go along, by names, in JSON's values. What it throws, the attaching call throws. */
    Map<String, ?> capture();

    /**
     * Takes what went along. Names of others may stand beside its own, and its own may be missing.
     *
     * @return what calls the act that it is given at once, in the thread that gives it, and with the context around it
     */
    Executor restore(Map<String, Object> carried);

    /** Both, the other one within this one. */
    default StoredContexts and(StoredContexts other) {
        StoredContexts outer = this;
        return new StoredContexts() {
            @Override
            public Map<String, ?> capture() {
                Map<String, Object> both = new LinkedHashMap<>(outer.capture());
                both.putAll(other.capture());
                return both;
            }

            @Override
            public Executor restore(Map<String, Object> carried) {
                Executor first = outer.restore(carried), second = other.restore(carried);
                return act -> first.execute(() -> second.execute(act));
            }
        };
    }
}
