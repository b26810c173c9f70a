package io.opentelemetry.api.trace;

import io.opentelemetry.api.common.Attributes;
import io.opentelemetry.context.Context;
import java.util.ArrayList;
import java.util.List;
import java.util.Map;
import java.util.TreeMap;
import java.util.concurrent.TimeUnit;

/** Stands for that of OpenTelemetry, and keeps what it is told. */
public final class Span {
    public final String name;
    public Object parent;
    public long start, end;
    public final Map<String, Object> attributes = new TreeMap<>();
    public final List<Span> links = new ArrayList<>();
    public final List<String> events = new ArrayList<>();
    public String status = "UNSET ";

    public Span(String name) {
        this.name = name;
    }

    public SpanContext getSpanContext() {
        return new SpanContext(this);
    }

    public Context storeInContext(Context context) {
        return new Context(this);
    }

    public Span addEvent(String name, Attributes attributes, long at, TimeUnit unit) {
        events.add(name + " " + attributes.of + " " + unit.toNanos(at));
        return this;
    }

    public Span setStatus(StatusCode code, String message) {
        status = code + " " + message;
        return this;
    }

    public void end(long at, TimeUnit unit) {
        end = unit.toNanos(at);
    }
}
