package io.opentelemetry.api.trace;

/** Stands for that of OpenTelemetry: whose context is it? */
public final class SpanContext {
    public final Span span;

    SpanContext(Span span) {
        this.span = span;
    }
}
