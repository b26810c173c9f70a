import cf.service.Contexts;
import cf.service.Request;
import cf.service.Service;
import java.util.Collections;
import java.util.Map;
import org.slf4j.Logger;
import org.slf4j.LoggerFactory;
import org.slf4j.MDC;

public class Logged {
    static final Logger LOG = LoggerFactory.getLogger(Logged.class);
    /** Each function has SLF4J's MDC of the place where it was attached. */
    static final Contexts CONTEXTS = () -> {
        Map<String, String> map = MDC.getCopyOfContextMap();
        return act -> {
            Map<String, String> old = MDC.getCopyOfContextMap();
            MDC.setContextMap(map == null ? Collections.emptyMap() : map);
            try {
                act.run();
            } finally {
                MDC.setContextMap(old == null ? Collections.emptyMap() : old);
            }
        };
    };

    public static void main(String[] args) {
        Service service = new Service().withContexts(CONTEXTS);
        MDC.put("client", "Ada");
        try (Request request = service.request("order 17")) {
            request.supplyAsync(() -> 4900).named("load").thenApply(Logged::charge).named("charge").handle((paid, error) -> {
                LOG.error("{}: {}", MDC.get("client"), request.history().line().replaceAll(" in .* ms", ""));
                return null;
            }).named("log").join();
        }
    }

    static int charge(int cents) {
        LOG.info("{} pays {}", MDC.get("client"), cents);
        throw new IllegalStateException("card declined");
    }
}
