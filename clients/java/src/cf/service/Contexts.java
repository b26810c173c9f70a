package cf.service;

import java.util.concurrent.Executor;

/**
 * Takes a context along with functions, such as a logger's MDC or a span: a function is called within that of the place where it was attached.
 * {@link Service#withContexts} takes it. For OpenTelemetry there is {@code cf.service.opentelemetry.Spans.CONTEXTS}; this is one for SLF4J's MDC:
 *
 * <pre>{@code
 * Contexts mdc = () -> {
 *     Map<String, String> map = MDC.getCopyOfContextMap();
 *     return act -> {
 *         Map<String, String> old = MDC.getCopyOfContextMap();
 *         MDC.setContextMap(map == null ? Map.of() : map);
 *         try {
 *             act.run();
 *         } finally {
 *             MDC.setContextMap(old == null ? Map.of() : old);
 *         }
 *     };
 * };
 * Service service = new Service(pool).withContexts(Spans.CONTEXTS.and(mdc));
 * }</pre>
 */
@FunctionalInterface
public interface Contexts {
    /**
     * Takes the context of the calling thread, where a function is handed over or a request is opened. No lock is held. What it throws, that
     * call throws, and nothing is changed.
     *
     * @return what calls each act that it is given at once, in the thread that gives it, and with the context around it
     */
    Executor capture();

    /** Takes both along, the other one within this one. */
    default Contexts and(Contexts other) {
        return () -> {
            Executor outer = capture(), inner = other.capture();
            return act -> outer.execute(() -> inner.execute(act));
        };
    }
}
