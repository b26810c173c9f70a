"""Loaders of traces and of spans, which are stricter than the tools that open them: Chrome's trace event format, and the JSON of
OpenTelemetry's protocol for traces. Each raises `Malformed` and says where the fault is."""
import re

PHASES = {"M", "X", "i", "s", "f"}
KINDS = range(1, 6)  # SPAN_KIND_INTERNAL to SPAN_KIND_CONSUMER


class Malformed(Exception):
    pass


def need(is_so, place, what):
    if not is_so:
        raise Malformed(f"{place}: {what}")


def member(thing, name, kind, place):
    need(name in thing, place, f"has no {name}")
    need(isinstance(thing[name], kind) and not (kind is not bool and isinstance(thing[name], bool)), place, f"{name} is {thing[name]!r}")
    return thing[name]


def only(thing, names, place):
    need(set(thing) <= set(names), place, f"has {sorted(set(thing) - set(names))}, which the format doesn't know")


def load_trace(trace):
    """The bars by (tid, ts), the names of rows by tid, and the arrows as pairs of bars."""
    only(trace, ["displayTimeUnit", "otherData", "traceEvents"], "trace")
    need(member(trace, "displayTimeUnit", str, "trace") in ("ms", "ns"), "trace", "displayTimeUnit")
    need(all(isinstance(it, str) for it in member(trace, "otherData", dict, "trace").values()), "trace", "otherData has more than texts")
    rows, bars, marks, ends, names = {}, [], [], {}, 0
    for k, event in enumerate(member(trace, "traceEvents", list, "trace")):
        place = f"traceEvents[{k}]"
        phase = member(event, "ph", str, place)
        need(phase in PHASES, place, f"ph is {phase!r}")
        name, _ = member(event, "name", str, place), member(event, "pid", int, place)
        if phase == "M":
            only(event, ["ph", "name", "pid", "tid", "args"], place)
            told = member(member(event, "args", dict, place), "name", str, place)
            if name == "thread_name":
                need(event["tid"] not in rows, place, "names a row again")
                rows[member(event, "tid", int, place)] = told
            else:
                need(name == "process_name", place, f"name is {name!r}")
                names += 1
            continue
        at, tid = member(event, "ts", (int, float), place), member(event, "tid", int, place)
        need(at >= 0 and tid in rows, place, "is before the beginning, or in no row")
        if phase == "X":
            only(event, ["ph", "cat", "pid", "tid", "name", "ts", "dur", "args"], place)
            need(member(event, "dur", (int, float), place) >= 0, place, "dur is below 0")
            bars.append(event)
        elif phase == "i":
            only(event, ["ph", "s", "cat", "pid", "tid", "name", "ts", "args"], place)
            need(event.get("s") == "t", place, "s isn't t")
            marks.append(event)
        else:
            only(event, ["ph", "bp", "cat", "pid", "tid", "name", "id", "ts"], place)
            need(phase == "s" or event.get("bp") == "e", place, "an end of an arrow is bound to no bar")
            pair = ends.setdefault((event["cat"], name, member(event, "id", int, place)), {})
            need(phase not in pair, place, "is the same end of an arrow again")
            pair[phase] = event
    need(names == 1, "trace", "names no process, or several")
    for row in rows:
        last = 0
        for bar in sorted((it for it in bars if it["tid"] == row), key=lambda it: (it["ts"], -it["dur"])):
            need(bar["ts"] >= last - 5e-4 or bar["ts"] + bar["dur"] <= last + 5e-4, bar, "bars of one row cross")
            last = max(last, bar["ts"] + bar["dur"])
    return bars, rows, marks, [(bar_round(pair["s"], bars), bar_round(pair["f"], bars)) for pair in whole_pairs(ends)]


def whole_pairs(ends):
    for key, pair in ends.items():
        need(set(pair) == {"s", "f"}, key, "is an arrow with one end")
        need(pair["s"]["ts"] <= pair["f"]["ts"], key, "is an arrow back in time")
        yield pair


def bar_round(end, bars):
    """The bar within which an arrow's end lies: before the bar's end, if it has any length."""
    found = [
        bar
        for bar in bars
        if bar["tid"] == end["tid"] and bar["ts"] <= end["ts"] and (end["ts"] < bar["ts"] + bar["dur"] or bar["dur"] == 0 and end["ts"] == bar["ts"])
    ]
    need(found, end, "is an arrow's end in no bar")
    return max(found, key=lambda bar: bar["ts"])


def attributes_of(thing, place):
    """Attributes as a dictionary: each value has exactly one of its kinds."""
    told = {}
    for attribute in member(thing, "attributes", list, place):
        only(attribute, ["key", "value"], place)
        key, value = member(attribute, "key", str, place), member(attribute, "value", dict, place)
        need(len(value) == 1 and key not in told, place, f"attribute {key}")
        ((kind, content),) = value.items()
        need(
            kind == "stringValue" and isinstance(content, str) or kind == "intValue" and re.fullmatch(r"-?\d+", str(content)),
            place,
            f"{key} is {value}",
        )
        told[key] = content
    return told


def load_spans(spans):
    """The spans by their numbers, each with its attributes as a dictionary, after those of the resource."""
    only(spans, ["resourceSpans"], "spans")
    found, (resource,) = {}, member(spans, "resourceSpans", list, "spans")
    only(resource, ["resource", "scopeSpans"], "resourceSpans[0]")
    need(attributes_of(resource["resource"], "resource").get("service.name"), "resource", "has no service.name")
    (scope,) = resource["scopeSpans"]
    only(scope, ["scope", "spans"], "scopeSpans[0]")
    member(member(scope, "scope", dict, "scope"), "name", str, "scope")
    for k, span in enumerate(member(scope, "spans", list, "scopeSpans[0]")):
        place = f"spans[{k}]"
        only(
            span,
            ["traceId", "spanId", "parentSpanId", "name", "kind", "startTimeUnixNano", "endTimeUnixNano", "attributes", "links", "status"],
            place,
        )
        for name, digits in (("traceId", 32), ("spanId", 16)):
            need(re.fullmatch(f"[0-9a-f]{{{digits}}}", member(span, name, str, place)) and int(span[name], 16), place, f"{name} is {span[name]!r}")
        need(span["spanId"] not in found, place, "has another's spanId")
        need(member(span, "name", str, place) != "" and member(span, "kind", int, place) in KINDS, place, "name or kind")
        begin, end = [member(span, name, str, place) for name in ("startTimeUnixNano", "endTimeUnixNano")]
        need(begin.isdigit() and end.isdigit() and int(begin) <= int(end) < 2**64, place, f"lasts from {begin} to {end}")
        status = span.get("status", {})
        only(status, ["code", "message"], place)
        need(status.get("code", 0) in (0, 1, 2) and ("message" in status) <= (status.get("code") == 2), place, f"status is {status}")
        found[span["spanId"]] = dict(span, attributes=attributes_of(span, place))
    need(len({span["traceId"] for span in found.values()}) == 1, "spans", "are of several traces")
    for number, span in found.items():
        need(span.get("parentSpanId") is None or span["parentSpanId"] in found, number, "has a parent that isn't there")
        for link in span.get("links", []):
            only(link, ["traceId", "spanId"], number)
            need(link["traceId"] == span["traceId"] and link["spanId"] in found and link["spanId"] != number, number, f"link {link}")
    need(sum("parentSpanId" not in span for span in found.values()) == 1, "spans", "have no root, or several")
    return found
