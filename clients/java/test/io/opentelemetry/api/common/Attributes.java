package io.opentelemetry.api.common;

import java.util.Map;

/** Stands for those of OpenTelemetry. */
public final class Attributes {
    public final Map<String, String> of;

    Attributes(Map<String, String> of) {
        this.of = of;
    }

    public static AttributesBuilder builder() {
        return new AttributesBuilder();
    }
}
