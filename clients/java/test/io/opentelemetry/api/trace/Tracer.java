package io.opentelemetry.api.trace;

import java.util.ArrayList;
import java.util.List;

/** Stands for that of OpenTelemetry, and keeps the spans that were begun. */
public final class Tracer {
    public final List<Span> begun = new ArrayList<>();

    public SpanBuilder spanBuilder(String name) {
        return new SpanBuilder(new Span(name), begun);
    }
}
