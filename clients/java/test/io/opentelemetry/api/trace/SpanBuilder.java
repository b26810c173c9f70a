package io.opentelemetry.api.trace;

import io.opentelemetry.context.Context;
import java.util.List;
import java.util.concurrent.TimeUnit;

/** Stands for that of OpenTelemetry. */
public final class SpanBuilder {
    private final Span span;
    private final List<Span> begun;

    SpanBuilder(Span span, List<Span> begun) {
        this.span = span;
        this.begun = begun;
    }

    public SpanBuilder setParent(Context context) {
        span.parent = context.of();
        return this;
    }

    public SpanBuilder setStartTimestamp(long at, TimeUnit unit) {
        span.start = unit.toNanos(at);
        return this;
    }

    public SpanBuilder setAttribute(String key, String value) {
        span.attributes.put(key, value);
        return this;
    }

    public SpanBuilder setAttribute(String key, long value) {
        span.attributes.put(key, value);
        return this;
    }

    public SpanBuilder addLink(SpanContext context) {
        span.links.add(context.span);
        return this;
    }

    public Span startSpan() {
        begun.add(span);
        return span;
    }
}
