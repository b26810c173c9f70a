package io.opentelemetry.context;

import java.util.concurrent.Executor;

/** Stands for that of OpenTelemetry, of which it has the calls that are used: which object, such as a span, is current in a thread? */
public final class Context {
    private static final ThreadLocal<Context> CURRENT = ThreadLocal.withInitial(() -> new Context(null));

    private final Object current;

    public Context(Object current) {
        this.current = current;
    }

    public static Context current() {
        return CURRENT.get();
    }

    public Object of() {
        return current;
    }

    public Executor wrap(Executor executor) {
        return act -> executor.execute(() -> {
            Context old = CURRENT.get();
            CURRENT.set(this);
            try {
                act.run();
            } finally {
                CURRENT.set(old);
            }
        });
    }
}
