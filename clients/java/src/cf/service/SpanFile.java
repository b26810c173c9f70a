package cf.service;

import cf.internal.Text;
import java.io.IOException;
import java.io.UncheckedIOException;
import java.nio.charset.StandardCharsets;
import java.nio.file.Files;
import java.nio.file.Path;
import java.nio.file.StandardOpenOption;
import java.security.SecureRandom;
import java.util.List;
import java.util.Map;
import java.util.Objects;
import java.util.function.Consumer;
import java.util.stream.Collectors;

/**
 * A hook for {@link Service#onEnd} that adds the spans of each request to a file: a line with the JSON of OpenTelemetry's protocol, as its
 * collectors read it from files. It is written as {@code cf_look trace --spans} writes it.
 */
public final class SpanFile implements Consumer<History> {
    private static final SecureRandom RANDOM = new SecureRandom();
    private static final String WHOLE = "ffffffffffffffff";

    private final Path file;
    private final String service;

    /** Into this file, which is made if it isn't there, as requests of a service of this name. */
    public SpanFile(Path file, String service) {
        this.file = Objects.requireNonNull(file);
        this.service = Objects.requireNonNull(service);
    }

    @Override
    public void accept(History history) {
        List<Span> spans = history.spans();
        if (spans.isEmpty()) {
            return;
        }
        String trace = String.format("%016x%016x", RANDOM.nextLong() | 1, RANDOM.nextLong());
        String line = "{\"resourceSpans\":[{\"resource\":{\"attributes\":[" + attribute("service.name", service)
                + "]},\"scopeSpans\":[{\"scope\":{\"name\":\"cf.service\"},\"spans\":["
                + spans.stream().map(span -> json(trace, span)).collect(Collectors.joining(",")) + "]}]}]}\n";
        try {
            Files.write(file, line.getBytes(StandardCharsets.UTF_8), StandardOpenOption.CREATE, StandardOpenOption.APPEND);
        } catch (IOException failed) {
            throw new UncheckedIOException(failed);
        }
    }

    private static String json(String trace, Span span) {
        String parent = span.stage() < 0 ? "" : ",\"parentSpanId\":\"" + WHOLE + "\"";
        String thrown = span.thrown() == null ? ""
                : "{\"timeUnixNano\":\"" + span.end() + "\",\"name\":\"exception\",\"attributes\":[" + attributes(span.thrown()) + "]}";
        String links = span.sources().stream().map(source -> "{\"traceId\":\"" + trace + "\",\"spanId\":\"" + number(source) + "\"}")
                .collect(Collectors.joining(","));
        String message = span.message().isEmpty() ? "" : ",\"message\":" + quoted(span.message());
        return "{\"traceId\":\"" + trace + "\",\"spanId\":\"" + number(span.stage()) + "\"" + parent + ",\"name\":" + quoted(span.name())
                + ",\"kind\":1,\"startTimeUnixNano\":\"" + span.start() + "\",\"endTimeUnixNano\":\"" + span.end() + "\",\"attributes\":["
                + attributes(span.attributes()) + "],\"events\":[" + thrown + "],\"links\":[" + links + "],\"status\":{\"code\":"
                + span.status().ordinal() + message + "}}";
    }

    /** The number of the span of a stage, or of the request. */
    private static String number(int stage) {
        return stage < 0 ? WHOLE : String.format("%016x", stage + 1);
    }

    private static String attributes(Map<String, ?> of) {
        return of.entrySet().stream().map(each -> attribute(each.getKey(), each.getValue())).collect(Collectors.joining(","));
    }

    private static String attribute(String key, Object value) {
        return "{\"key\":\"" + key + "\",\"value\":{"
                + (value instanceof Integer ? "\"intValue\":\"" + value + "\"" : "\"stringValue\":" + quoted((String) value)) + "}}";
    }

    /** A string of JSON, of one line wherever it is shown. Half of a surrogate pair, which no UTF-8 has, becomes the replacement character. */
    private static String quoted(String text) {
        StringBuilder quoted = new StringBuilder("\"");
        for (int k = 0, c; k < text.length(); k += Character.charCount(c)) {
            c = text.codePointAt(k);
            if (c == '"' || c == '\\' || Text.isHidden(c)) {
                for (char half : Character.toChars(c)) {
                    quoted.append(String.format("\\u%04x", (int) half));
                }
            } else {
                quoted.appendCodePoint(Character.getType(c) == Character.SURROGATE ? '\ufffd' : c);
            }
        }
        return quoted.append('"').toString();
    }
}
