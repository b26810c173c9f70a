package cf.service;

import cf.internal.Form;
import cf.internal.Layout;
import cf.internal.Tale;
import cf.internal.Teller;
import cf.internal.Text;
import cf.internal.Words;
import java.util.Arrays;
import java.util.BitSet;
import java.util.List;

/** The history of a request in memory, which has times and spans, too. */
public final class History extends RequestHistory {
    /** The number of an event that wasn't. */
    static final int NEVER = -1;
    private static final int[] NO_ROWS = {};

    private final String name;
    private final long[] words;
    private final Flow flow;
    private final long[] times;
    /** When its first event was, in nanoseconds since 1970. */
    private final long began;
    private final int stages;
    private final String[] names;
    /** Values and exceptions; but the texts of them where the request doesn't tell all. */
    private final Object[] values, errors;
    private Describe describe = Describe.ALL;
    /** The stages that end by others. */
    final BitSet joins;
    private final String[] threads;
    /** What the machine brought, for tests; else null. */
    final int[][] witness;
    /** What a machine answers that does the words once more; and of each stage the kind of its outcome, and the number of that. */
    private int[] answers, numbers, kinds, ends;
    /** Of each stage the event that attached it, the one that made it ready, and the one that settled it; {@link #NEVER} where there is none. */
    private int[] attached, ready, settled;

    /** Its request's lock is held. {@link #describe} is called once that is free. Where moments are null, they are the machine's. */
    History(String name, Flow flow, Machine machine, String[] names, Object[] values, Throwable[] errors, BitSet joins, String[] threads,
            long[] moments) {
        this.name = name;
        words = Arrays.copyOf(machine.wordsAndMoments(), machine.events());
        this.flow = flow;
        long[] kept = machine.wordsAndMoments();
        times = moments != null ? moments : Machine.wordTimes(kept, words.length);
        began = Machine.startTime(kept, words.length);
        stages = machine.stages();
        witness = machine.witnesses();
        this.names = names;
        this.values = values;
        this.errors = Arrays.copyOf(errors, errors.length, Object[].class);
        this.joins = joins;
        this.threads = threads;
    }

    /** Keeps texts by this function alone, where it isn't the one that tells all. */
    History describeBy(Describe by) {
        if (by != Describe.ALL) {
            for (Object[] each : Arrays.asList(values, errors)) {
                for (int k = 0; k < each.length; k++) {
                    each[k] = Text.describe(by, each[k]);
                }
            }
            describe = text -> (String) text;
        }
        return this;
    }

    /** How many events there were: each is one word of 8 bytes. */
    public int events() {
        return words.length;
    }

    /** How many stages the request had, relays included. */
    public int stages() {
        return stages;
    }

    /**
     * What happened as OpenTelemetry's spans: one for the request, and then within it one for each call of a function, in the order of their
     * stages, from its claim to its finish. Names and attributes are those of {@code cf_look trace --spans}. There are none if nothing happened. A
     * thread claims all functions at once that one event made ready, so the spans of the later ones have the waiting for the earlier ones in them.
     * The request has failed if a stage has that no other one waits for; what functions attached, and what a scope has cancelled, isn't looked at for
     * that.
     */
    public List<Span> spans() {
        return SpanReader.spansOf(this);
    }

    private int plannedStages() {
        return flow == null ? 0 : flow.stageCount();
    }

    /** A machine that is to do the words once more. */
    Machine machine() {
        return new Machine(flow == null ? null : flow.plan(), stages - plannedStages());
    }

    /** Does all words once more, once. */
    synchronized void read() {
        if (ends != null) {
            return;
        }
        Machine machine = machine();
        answers = new int[words.length];
        numbers = new int[words.length];
        kinds = new int[stages];
        attached = new int[stages];
        ready = new int[stages];
        settled = new int[stages];
        Arrays.fill(ready, NEVER);
        Arrays.fill(settled, NEVER);
        int[] ends = new int[stages];
        for (int from = 0, count = Layout.MOST_READY; flow != null && flow.startsReady() && count == Layout.MOST_READY;) {
            count = machine.fetchReady(from);
            for (int j = 0; j < count; j++) {
                from = machine.readyStage(j) + 1;
                ready[from - 1] = 0;
            }
        }
        for (int k = 0; k < words.length; k++) {
            machine.replay(words[k]);
            answers[k] = machine.answer();
            numbers[k] = machine.replyNumber();
            if (Words.kind(words[k]) == Words.ATTACH && answers[k] == Layout.AT) {
                attached[numbers[k]] = k;
            }
            do {
                for (int j = 0; j < machine.settledCount(); j++) {
                    int stage = machine.settledStage(j);
                    settled[stage] = k;
                    kinds[stage] = machine.settledKind(j);
                    ends[stage] = machine.settledNumber(j);
                }
                for (int j = 0; j < machine.readyCount(); j++) {
                    int stage = machine.readyStage(j);
                    ready[stage] = ready[stage] == NEVER ? k : ready[stage];
                }
            } while (machine.fetchMore(Machine.NOBODY));
        }
        machine.giveBackCore(null);
        this.ends = ends;
    }

    // For spans, meters, and texts of stages. Those of stages hold once it was read.

    /** Whether events have times. */
    boolean hasTimes() {
        return times != null;
    }

    /** The event that attached a stage; of a flow's the first one. */
    int attached(int stage) {
        return attached[stage];
    }

    /** The event that made a stage's function ready, or {@link #NEVER}. */
    int ready(int stage) {
        return ready[stage];
    }

    /** The event that settled a stage, or {@link #NEVER}. */
    int settled(int stage) {
        return settled[stage];
    }

    String name() {
        return name;
    }

    long word(int event) {
        return words[event];
    }

    /** When an event was, in nanoseconds since 1970. */
    long moment(int event) {
        return began + (times == null ? 1000L * event : times[event]);
    }

    int answer(int event) {
        return answers[event];
    }

    int number(int event) {
        return numbers[event];
    }

    /** The kind of a stage's outcome; {@link Layout#PENDING} where it has none. */
    int kind(int stage) {
        return kinds[stage];
    }

    /** The text of a stage's fault. */
    String failure(int stage) {
        int kind = kind(stage);
        return kind == Layout.THROWN ? describeValue(errors[ends[stage]]) : kind == Layout.CANCELLED ? "cancelled" : kind == Layout.TIMED_OUT ? "timed out"
                : "a bad answer";
    }

    /** The text of an exception. */
    String describeValue(Object error) {
        return Text.escape(Text.describe(describe, error));
    }

    Object error(int code) {
        return errors[code];
    }

    /** The name of a stage, or its form. */
    String title(int stage, Form form) {
        return names[stage] != null ? names[stage] : form.text;
    }

    /** The name of a caller. */
    String callerName(int who) {
        return who < Request.CLOCK ? "caller" : who == Request.CLOCK ? "clock" : who == Request.RELAY ? "relay"
                : who == Request.OTHER_THREADS ? "some thread" : threads[who - Request.FIRST_THREAD];
    }

    /** Of each stage the form. */
    Form[] allForms() {
        Form[] forms = new Form[stages];
        int at = 0;
        for (; at < plannedStages(); at++) {
            forms[at] = flow.form(at);
        }
        for (long word : words) {
            if (Words.kind(word) == Words.ATTACH && at < stages) {
                forms[at++] = Form.byNumber(Words.lowBits(word) >>> 24);
            }
        }
        return forms;
    }

    /** Of each stage the sources. */
    int[][] allSources() {
        int[][] of = new int[stages][];
        int at = 0;
        for (; at < plannedStages(); at++) {
            of[at] = flow.plannedStage(at).sources;
        }
        for (long word : words) {
            if (Words.kind(word) == Words.ATTACH && at < stages) {
                of[at++] = Words.sources(word);
            }
        }
        return of;
    }

    /** Of a stage that isn't settled: ", waits for " and its sources that aren't either. */
    String waitsFor(int stage) {
        read();
        Form[] forms = allForms();
        StringBuilder text = new StringBuilder();
        for (int source : allSources()[stage]) {
            if (kinds[source] == Layout.PENDING) {
                text.append(text.length() == 0 ? ", waits for " : " and ").append(source).append(' ').append(title(source, forms[source]));
            }
        }
        return text.toString();
    }

    // As texts, which the library tells.

    /** What {@code cf run} prints of the script: the replies, and what the stages hold. */
    public String report() {
        return teller().text(Tale.Format.REPORT);
    }

    /** @hidden */
    @Override
    protected Teller teller() {
        return new Teller(name, words) {
            @Override
            protected Tale newTale(Tale.Format kind) {
                Tale tale = new Tale(flow == null ? NO_ROWS : flow.plan().rows, stages - plannedStages(),
                        kind == Tale.Format.LINES ? relayWords() : words);
                if (times != null && kind != Tale.Format.SCRIPT && kind != Tale.Format.REPORT) {
                    tale.setTimes(times);
                }
                return tale;
            }

            @Override
            protected void addLabels(Tale tale) {
                tale.setLabels(Tale.Label.STAGES, Arrays.stream(names).map(each -> each == null ? "" : each).toArray(String[]::new));
                tale.setLabels(Tale.Label.CALLERS, callerNames(tale.words));
                tale.setLabels(Tale.Label.VALUES, texts(values));
                tale.setLabels(Tale.Label.ERRORS, texts(errors));
            }

            @Override
            protected String callerName(int who) {
                return History.this.callerName(who);
            }
        };
    }

    /**
     * The words, with those as a relay's that settle one of this request, a join, or what is of a scope, which the machine does as the clock. A relay
     * stands right below a composing stage; and the clock cancels nothing.
     */
    private long[] relayWords() {
        Form[] forms = allForms();
        return Arrays.stream(words).map(word -> {
            int stage = Words.stage(word), above = stage + 1;
            boolean isRelays = Words.caller(word) == Request.CLOCK
                    && (Words.kind(word) == Words.CANCEL || joins.get(stage) || above < stages && forms[above].composes);
            return isRelays ? Words.withCaller(Request.RELAY, word) : word;
        }).toArray();
    }

    private String[] texts(Object[] things) {
        return Arrays.stream(things).map(each -> Text.describe(describe, each)).toArray(String[]::new);
    }
}
