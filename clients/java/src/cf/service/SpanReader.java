package cf.service;

import cf.internal.Form;
import cf.internal.Layout;
import cf.internal.Words;
import java.util.ArrayList;
import java.util.Arrays;
import java.util.BitSet;
import java.util.Collections;
import java.util.LinkedHashMap;
import java.util.List;
import java.util.Map;

/** Reads out of a history, in one pass over its words, when functions were claimed and finished, and spans. */
final class SpanReader {
    private static final int NONE = History.NEVER;
    /** Tags of finishes. */
    private static final int THROWS = 2, LINKS = 3;

    private final History history;
    private final Form[] forms;
    private final int[][] of;
    /** Of each stage the events by which its function was claimed and finished. */
    private final int[] claims, finishes;
    /** How many functions each caller has claimed and not finished. */
    private final int[] running = new int[Request.OTHER_THREADS + 1];
    /** Stages for which another one waits, that a function attached, or that a scope ended. */
    private final boolean[] inner;
    /** Stages that the end of a scope has cancelled, and those that failed since they stand behind them. */
    private final BitSet ended = new BitSet();

    SpanReader(History history) {
        this.history = history;
        history.read();
        forms = history.allForms();
        of = history.allSources();
        claims = new int[history.stages()];
        finishes = new int[history.stages()];
        inner = new boolean[history.stages()];
        Arrays.fill(claims, NONE);
        Arrays.fill(finishes, NONE);
        for (int k = 0; k < of.length; k++) {
            for (int source : of[k]) {
                inner[source] = true;
            }
            if (forms[k].composes) {
                inner[k - 1] = true; // its relay
            }
        }
        for (int k = 0; k < history.events(); k++) {
            read(k, history.word(k));
        }
        for (int k = 0; k < of.length; k++) {
            boolean isBehind = history.kind(k) == Layout.CANCELLED && Arrays.stream(of[k]).anyMatch(ended::get);
            ended.set(k, ended.get(k) || isBehind);
            inner[k] |= ended.get(k);
        }
    }

    static List<Span> spansOf(History history) {
        if (history.events() == 0) {
            return Collections.emptyList();
        }
        SpanReader it = new SpanReader(history);
        List<Span> spans = new ArrayList<>();
        spans.add(it.wholeSpan());
        for (int k = 0; k < it.claims.length; k++) {
            if (it.claims[k] != NONE) {
                spans.add(it.span(k));
            }
        }
        return spans;
    }

    /** The event by which a stage's function was claimed, or {@link History#NEVER}. */
    int claim(int stage) {
        return claims[stage];
    }

    /** The event by which it was finished, or {@link History#NEVER}. */
    int finish(int stage) {
        return finishes[stage];
    }

    /** Whether a stage has failed that nothing waits for. */
    boolean hasFailed() {
        boolean has = false;
        for (int k = 0; k < inner.length; k++) {
            has |= !inner[k] && status(k) == Span.Status.ERROR;
        }
        return has;
    }

    private void read(int k, long word) {
        int who = Words.caller(word), stage = Words.stage(word);
        switch (Words.kind(word)) {
            case Words.ATTACH:
                inner[history.number(k)] |= running[who] > 0;
                break;
            case Words.CANCEL:
                ended.set(stage, ended.get(stage) || who == Request.CLOCK);
                break;
            case Words.CLAIM:
                if (history.answer(k) == Layout.GRANTED) {
                    claims[stage] = k;
                    running[who]++;
                }
                break;
            case Words.FINISH:
                if (finishes[stage] == NONE && claims[stage] != NONE) {
                    finishes[stage] = k;
                    running[Words.caller(history.word(claims[stage]))]--;
                }
                if (Words.tag(word) == LINKS) {
                    inner[Words.lowBits(word)] = true;
                }
                break;
            default:
        }
    }

    /** The span of the request, which has failed where a stage has that nothing waits for and no scope has cancelled. */
    private Span wholeSpan() {
        Span.Status status = Span.Status.OK;
        String message = "";
        boolean isEmpty = true;
        for (int k = 0; k < inner.length && status != Span.Status.ERROR; k++) {
            if (!inner[k]) {
                isEmpty = false;
                Span.Status own = status(k);
                status = own == Span.Status.OK ? status : own;
                message = own == Span.Status.ERROR ? history.failure(k) : message;
            }
        }
        return new Span(NONE, history.name(), history.moment(0), history.moment(history.events() - 1), new LinkedHashMap<>(), new ArrayList<>(),
                isEmpty ? Span.Status.UNSET : status, message, null);
    }

    private Span span(int stage) {
        int claim = claims[stage], finish = finishes[stage];
        Map<String, Object> attributes = new LinkedHashMap<>();
        attributes.put("cf.stage", stage);
        attributes.put("cf.caller", history.callerName(Words.caller(history.word(claim))));
        attributes.put("cf.form", forms[stage].text);
        List<Integer> sources = new ArrayList<>();
        for (int source : of[stage]) {
            if (claims[source] != NONE) {
                sources.add(source);
            }
        }
        Span.Status status = status(stage);
        return new Span(stage, history.title(stage, forms[stage]), history.moment(claim),
                history.moment(finish == NONE ? history.events() - 1 : finish),
                attributes, sources, status, status == Span.Status.ERROR ? history.failure(stage) : "",
                finish == NONE ? null : thrown(history.word(finish)));
    }

    private Span.Status status(int stage) {
        int kind = history.kind(stage);
        return kind == Layout.PENDING ? Span.Status.UNSET : kind == Layout.VALUE ? Span.Status.OK : Span.Status.ERROR;
    }

    private Map<String, String> thrown(long finish) {
        if (Words.tag(finish) != THROWS) {
            return null;
        }
        Map<String, String> thrown = new LinkedHashMap<>();
        Object error = history.error(Words.lowBits(finish));
        if (error instanceof Throwable) { // and not what was told of it
            thrown.put("exception.type", error.getClass().getName());
        }
        thrown.put("exception.message", history.describeValue(error));
        return thrown;
    }
}
