package io.opentelemetry.api.trace;

/** Stands for that of OpenTelemetry. */
public enum StatusCode { UNSET, OK, ERROR }
