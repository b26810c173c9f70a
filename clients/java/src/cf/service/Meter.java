package cf.service;

import cf.internal.Ends;
import cf.internal.Form;
import cf.internal.Text;
import cf.internal.Words;
import java.math.BigDecimal;
import java.math.MathContext;
import java.util.AbstractMap.SimpleEntry;
import java.util.ArrayList;
import java.util.Arrays;
import java.util.Comparator;
import java.util.List;
import java.util.Locale;
import java.util.Map;
import java.util.WeakHashMap;
import java.util.concurrent.TimeUnit;

/**
 * Counts what happened in requests that are over, and tells which ones are open, and why. {@link Service#withMeter} takes it, of one service or of
 * several.
 *
 * <pre>{@code
 * Meter meter = new Meter();
 * Service service = new Service(executor).withMeter(meter);
 * server.createContext("/metrics", exchange -> answer(exchange, meter.text()));
 * ManagementFactory.getPlatformMBeanServer().registerMBean(meter, new ObjectName("cf:type=Meter"));
 * }</pre>
 *
 * <p>What is open is looked at when it is asked for, which takes some microseconds a request. A request that nobody can reach any more isn't open.
 * Histograms are made of the {@link History} of each request once it was closed and its stages are settled, on the thread {@code cf-ends}: while
 * 2,048 requests wait for that, further ones aren't counted, and one warning says so. With {@code -Dcf.times=false} all times of these are 0.
 *
 * <p>Any thread may use it.
 */
public final class Meter implements MeterMXBean {
    /** The upper bounds of buckets, in seconds. */
    private static final double[] BOUNDS = {0.001, 0.005, 0.01, 0.05, 0.1, 0.5, 1, 5, 10, 60};

    /** The requests that aren't over, and when each was opened, by System.nanoTime. */
    private final Map<Request, Long> open = new WeakHashMap<>();
    private final Ends<History> ends = new Ends<>(this::count, "cf.service");
    private final Histogram requests = new Histogram("request", "How long requests took that are over, from the first to the last event."),
            functions = new Histogram("function", "How long their functions ran."),
            queue = new Histogram("queue", "How long their ready functions waited for a thread."),
            waits = new Histogram("wait", "How long their promises were open.");
    private long failed;

    /** One that has counted nothing. */
    public Meter() {}

    void noteOpened(Request request) {
        synchronized (open) {
            open.put(request, System.nanoTime());
        }
    }

    /** A request is over. */
    void tellEnd(Request request, History history) {
        synchronized (open) {
            open.remove(request);
        }
        ends.tell(() -> history, null);
    }

    private synchronized void count(History history) {
        Reading reading = new Reading(history);
        for (int k = 0; k < history.stages(); k++) {
            reading.count(k);
        }
        requests.add(history.events() == 0 ? 0 : reading.between(0, history.events() - 1));
        failed += reading.calls.hasFailed() ? 1 : 0;
    }

    /** What a history says of its stages. */
    private final class Reading {
        final History history;
        final SpanReader calls;
        final Form[] forms;

        Reading(History history) {
            this.history = history;
            calls = new SpanReader(history);
            forms = history.allForms();
        }

        double between(int first, int second) {
            return history.hasTimes() ? Math.max(0, history.moment(second) - history.moment(first)) / 1e9 : 0;
        }

        /** Whether it is the relay of the composing stage right above it, which may be linked to it once its function has ended. */
        boolean isRelay(int k) {
            return k + 1 < forms.length && forms[k + 1].composes;
        }

        /** The event from which on somebody has to settle a promise, or NEVER. */
        int promised(int k) {
            if (forms[k] != Form.SOURCE || !isRelay(k)) {
                return forms[k] != Form.SOURCE || history.joins.get(k) ? History.NEVER : history.attached(k);
            }
            int finish = calls.finish(k + 1);
            boolean isLinked = finish != History.NEVER && Words.isLinking(history.word(finish)) && Words.lowBits(history.word(finish)) == k;
            return isLinked ? finish : History.NEVER;
        }

        /** Adds how long it took. */
        void count(int k) {
            int claim = calls.claim(k), finish = calls.finish(k), promised = promised(k), settled = history.settled(k);
            if (claim != History.NEVER) {
                queue.add(between(history.ready(k) == History.NEVER ? claim : history.ready(k), claim));
            }
            if (finish != History.NEVER) {
                functions.add(between(claim, finish));
            }
            if (promised != History.NEVER && settled != History.NEVER) {
                waits.add(between(promised, settled));
            }
        }
    }

    /** The requests that aren't over, the oldest first. One whose stages are all settled, and that nobody has closed, isn't told. */
    public List<OpenRequest> openRequests() {
        return look().requests;
    }

    private Look look() {
        List<Map.Entry<Request, Long>> each = new ArrayList<>();
        synchronized (open) {
            open.forEach((request, since) -> each.add(new SimpleEntry<>(request, since)));
        }
        each.sort(Comparator.comparing(Map.Entry::getValue));
        Look look = new Look();
        each.forEach(it -> look.at(it.getKey(), it.getValue()));
        return look;
    }

    /** What is open. */
    private final class Look {
        final List<OpenRequest> requests = new ArrayList<>();
        int running, ready, promises;
        double oldestReady;

        double oldest() {
            return requests.isEmpty() ? 0 : requests.get(0).seconds();
        }

        void at(Request request, long since) {
            Reading reading = new Reading(request.glance());
            List<String> why = new ArrayList<>();
            for (int k = 0; k < reading.forms.length; k++) {
                String waits = why(reading, k);
                if (waits != null) {
                    why.add(k + " " + Text.escape(reading.history.title(k, reading.forms[k])) + waits);
                }
            }
            if (!why.isEmpty()) {
                requests.add(new OpenRequest(request, (System.nanoTime() - since) / 1e9, why));
            }
        }

        /** What a stage waits for, unless that is another stage, or nothing. */
        private String why(Reading reading, int k) {
            History history = reading.history;
            int claim = reading.calls.claim(k), readyAt = history.ready(k), promised = reading.promised(k);
            boolean isSettled = history.settled(k) != History.NEVER;
            if (claim != History.NEVER && reading.calls.finish(k) == History.NEVER) {
                running++;
                String on = ", on " + Text.escape(history.callerName(Words.caller(history.word(claim))));
                return (isSettled ? " is settled, and its function has run on" : " has run") + forSeconds(age(history, claim)) + on;
            }
            if (!isSettled && claim == History.NEVER && readyAt != History.NEVER) {
                ready++;
                oldestReady = Math.max(oldestReady, age(history, readyAt));
                return " has been ready" + forSeconds(age(history, readyAt));
            }
            if (!isSettled && promised != History.NEVER) {
                promises++;
                return " has waited to be settled" + forSeconds(age(history, promised));
            }
            return null;
        }

        /** For how many seconds it has been so. A flow's stages may be there before any event is. */
        private double age(History history, int event) {
            long now = TimeUnit.MILLISECONDS.toNanos(System.currentTimeMillis());
            return event < history.events() ? Math.max(0, now - history.moment(event)) / 1e9 : 0;
        }
    }

    static String forSeconds(double seconds) {
        return String.format(Locale.ROOT, " for %.1f s", seconds);
    }

    /** All of it in Prometheus' text form, version 0.0.4. */
    @Override
    public String text() {
        Look look = look();
        StringBuilder text = new StringBuilder();
        add(text, "open_requests", "Requests that aren't over.", "gauge", look.requests.size());
        add(text, "oldest_request_seconds", "The age of the oldest of them.", "gauge", look.oldest());
        add(text, "running_functions", "Functions at work.", "gauge", look.running);
        add(text, "ready_functions", "Functions that no thread has taken yet.", "gauge", look.ready);
        add(text, "oldest_ready_seconds", "For how long the oldest of them has been ready.", "gauge", look.oldestReady);
        add(text, "open_promises", "Stages that somebody has to settle.", "gauge", look.promises);
        synchronized (this) {
            Arrays.asList(requests, functions, queue, waits).forEach(each -> each.addTo(text));
            add(text, "failed_requests_total", "Requests that are over, and failed: a stage for which no other one waits did.", "counter", failed);
        }
        return text.toString();
    }

    private static void add(StringBuilder text, String name, String help, String kind, double value) {
        addHead(text, name, help, kind);
        text.append("cf_memory_").append(name).append(' ').append(plain(value)).append('\n');
    }

    private static void addHead(StringBuilder text, String name, String help, String kind) {
        text.append(String.format("# HELP cf_memory_%s %s\n# TYPE cf_memory_%s %s\n", name, help, name, kind));
    }

    /** A number without an exponent, and without a point where it needs none. */
    private static String plain(double number) {
        return new BigDecimal(number, MathContext.DECIMAL64).stripTrailingZeros().toPlainString();
    }

    /** How many of what was counted took at most so long. The meter's lock is held. */
    private static final class Histogram {
        private final String name, help;
        private final long[] counts = new long[BOUNDS.length + 1];
        private double sum;

        Histogram(String what, String help) {
            name = what + "_seconds";
            this.help = help;
        }

        void add(double seconds) {
            int at = Arrays.binarySearch(BOUNDS, seconds);
            counts[at < 0 ? -1 - at : at]++;
            sum += seconds;
        }

        long count() {
            return Arrays.stream(counts).sum();
        }

        void addTo(StringBuilder text) {
            addHead(text, name, help, "histogram");
            long upTo = 0;
            for (int k = 0; k < counts.length; k++) {
                upTo += counts[k];
                text.append(String.format("cf_memory_%s_bucket{le=\"%s\"} %d\n", name, k < BOUNDS.length ? plain(BOUNDS[k]) : "+Inf", upTo));
            }
            text.append(String.format("cf_memory_%s_sum %s\ncf_memory_%s_count %d\n", name, plain(sum), name, upTo));
        }
    }

    // By JMX.

    @Override
    public int getOpenRequests() {
        return look().requests.size();
    }

    @Override
    public double getOldestRequestSeconds() {
        return look().oldest();
    }

    @Override
    public int getRunningFunctions() {
        return look().running;
    }

    @Override
    public int getReadyFunctions() {
        return look().ready;
    }

    @Override
    public double getOldestReadySeconds() {
        return look().oldestReady;
    }

    @Override
    public int getOpenPromises() {
        return look().promises;
    }

    @Override
    public synchronized long getEndedRequests() {
        return requests.count();
    }

    @Override
    public synchronized long getFailedRequests() {
        return failed;
    }

    @Override
    public String[] listOpenRequests() {
        return openRequests().stream().map(OpenRequest::toString).toArray(String[]::new);
    }
}
