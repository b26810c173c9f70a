package cf.service;

import java.util.Collections;
import java.util.List;
import java.util.Map;

/** A span of {@link History#spans}, for OpenTelemetry: that of a request, or of one call of a function. */
public final class Span {
    /** How the request or the call ended: not yet, with a value, or with an exception. */
    public enum Status {
        /** It isn't settled. */
        UNSET,
        /** It ended with a value. */
        OK,
        /** It failed or was cancelled. */
        ERROR
    }

    private final int stage;
    private final String name;
    private final long start, end;
    private final Map<String, Object> attributes;
    private final List<Integer> sources;
    private final Status status;
    private final String message;
    private final Map<String, String> thrown;

    Span(int stage, String name, long start, long end, Map<String, Object> attributes, List<Integer> sources, Status status, String message,
            Map<String, String> thrown) {
        this.stage = stage;
        this.name = name;
        this.start = start;
        this.end = end;
        this.attributes = Collections.unmodifiableMap(attributes);
        this.sources = Collections.unmodifiableList(sources);
        this.status = status;
        this.message = message;
        this.thrown = thrown == null ? null : Collections.unmodifiableMap(thrown);
    }

    /** The stage whose function was called, or -1 for the request. */
    public int stage() {
        return stage;
    }

    /** That of the request or of the stage. */
    public String name() {
        return name;
    }

    /** In nanoseconds since 1970: the claim, and for the request the first event. */
    public long start() {
        return start;
    }

    /** The finish, in nanoseconds since 1970; for the request, or a call that isn't finished, the last event. */
    public long end() {
        return end;
    }

    /** {@code cf.stage}, which is an Integer, {@code cf.caller} and {@code cf.form}. */
    public Map<String, Object> attributes() {
        return attributes;
    }

    /** The stages to whose spans it has a link. */
    public List<Integer> sources() {
        return sources;
    }

    /** How it ended. */
    public Status status() {
        return status;
    }

    /** The text of its exception, or an empty text. */
    public String message() {
        return message;
    }

    /** Attributes of the event at the end that has the function's exception, or null. */
    public Map<String, String> thrown() {
        return thrown;
    }
}
