package io.opentelemetry.api.common;

import java.util.Map;
import java.util.TreeMap;

/** Stands for that of OpenTelemetry. */
public final class AttributesBuilder {
    private final Map<String, String> of = new TreeMap<>();

    public AttributesBuilder put(String key, String value) {
        of.put(key, value);
        return this;
    }

    public Attributes build() {
        return new Attributes(of);
    }
}
