package cf.service.opentelemetry;

import cf.service.Contexts;
import cf.service.History;
import cf.service.Span;
import io.opentelemetry.api.common.Attributes;
import io.opentelemetry.api.common.AttributesBuilder;
import io.opentelemetry.api.trace.SpanBuilder;
import io.opentelemetry.api.trace.StatusCode;
import io.opentelemetry.api.trace.Tracer;
import io.opentelemetry.context.Context;
import java.util.HashMap;
import java.util.Map;
import java.util.Objects;
import java.util.concurrent.TimeUnit;
import java.util.function.Consumer;

/**
 * Hands the spans of each request to OpenTelemetry, with their own times. With its contexts, the span of a request is a child of the one that was
 * current where the request was opened:
 *
 * <pre>{@code
 * Service service = new Service(pool).withContexts(Spans.CONTEXTS).onEnd(new Spans(openTelemetry.getTracer("shop")));
 * }</pre>
 */
public final class Spans implements Consumer<History> {
    /** OpenTelemetry's current context goes along with functions. */
    public static final Contexts CONTEXTS = () -> Context.current().wrap(Runnable::run);

    private final Tracer tracer;

    public Spans(Tracer tracer) {
        this.tracer = Objects.requireNonNull(tracer);
    }

    @Override
    public void accept(History history) {
        Map<Integer, io.opentelemetry.api.trace.Span> made = new HashMap<>();
        io.opentelemetry.api.trace.Span whole = null;
        long end = 0;
        Context within = Context.current();
        for (Span span : history.spans()) {
            io.opentelemetry.api.trace.Span shown = startSpan(span, within, made);
            if (span.thrown() != null) {
                AttributesBuilder attributes = Attributes.builder();
                span.thrown().forEach(attributes::put);
                shown.addEvent("exception", attributes.build(), span.end(), TimeUnit.NANOSECONDS);
            }
            if (span.status() != Span.Status.UNSET) {
                shown.setStatus(span.status() == Span.Status.OK ? StatusCode.OK : StatusCode.ERROR, span.message());
            }
            if (whole == null) {
                whole = shown;
                end = span.end();
                within = shown.storeInContext(within);
            } else {
                made.put(span.stage(), shown);
                shown.end(span.end(), TimeUnit.NANOSECONDS);
            }
        }
        if (whole != null) {
            whole.end(end, TimeUnit.NANOSECONDS);
        }
    }

    private io.opentelemetry.api.trace.Span startSpan(Span span, Context within, Map<Integer, io.opentelemetry.api.trace.Span> made) {
        SpanBuilder builder = tracer.spanBuilder(span.name()).setParent(within).setStartTimestamp(span.start(), TimeUnit.NANOSECONDS);
        span.attributes().forEach((key, value) -> {
            if (value instanceof Integer) {
                builder.setAttribute(key, (long) (Integer) value);
            } else {
                builder.setAttribute(key, (String) value);
            }
        });
        span.sources().forEach(source -> builder.addLink(made.get(source).getSpanContext()));
        return builder.startSpan();
    }
}
