package cf.store;

import java.io.ByteArrayOutputStream;
import java.io.IOException;
import java.io.UncheckedIOException;
import java.net.URLDecoder;
import java.nio.ByteBuffer;
import java.nio.CharBuffer;
import java.nio.charset.CharacterCodingException;
import java.nio.charset.StandardCharsets;
import java.util.ArrayList;
import java.util.Arrays;
import java.util.Base64;
import java.util.Collections;
import java.util.Comparator;
import java.util.HashMap;
import java.util.LinkedHashMap;
import java.util.List;
import java.util.Map;
import java.util.concurrent.ConcurrentLinkedDeque;

/**
 * Rows in keys of an etcd cluster, by the JSON gateway of etcd 3.4: for few and important requests that outlive machines. The keys are those of
 * Python's {@code cf.store}. It answers what a majority of the members has on disk, unless they were started with {@code --unsafe-no-fsync}, which
 * can't be seen here. It has no clock: timers go by each process's own.
 */
public final class EtcdStore implements Store {
    /** In a put: a transaction of etcd has 128 operations at most by default. */
    private static final int MOST_ENTRIES = 40;
    /** That one answer has, so that it comes in time. */
    private static final int MOST_KEYS = 1000;
    /** How long a member may be silent, in milliseconds. */
    private static final int SILENCE = 3000;
    /** How many digits a place has in a key, so that a range is in order. */
    private static final int DIGITS = 6;

    private final String[] members;
    private final ConcurrentLinkedDeque<MemberConnection> idle = new ConcurrentLinkedDeque<>();
    /** The member that is asked is that of this number, counted round. It is raised where one doesn't answer. */
    private volatile int turn;
    private volatile boolean isClosed;
    private Http watch;

    /** A connection, and the turn in which it was made. */
    private static final class MemberConnection {
        final Http http;
        final int turn;

        MemberConnection(Http http, int turn) {
            this.http = http;
            this.turn = turn;
        }
    }

    private EtcdStore(String[] members) {
        this.members = members;
    }

    /**
     * The store of a cluster, by the addresses of its members: {@code HOST:PORT,HOST:PORT}.
     *
     * @throws IllegalArgumentException these are no addresses
     * @throws StoreException.Unknown no majority answers
     */
    public static EtcdStore open(String addresses) {
        String[] members = addresses.split(",", -1);
        for (String member : members) {
            if (!member.matches(".+:[0-9]{1,5}")) {
                throw new IllegalArgumentException("etcd's members are given as HOST:PORT,HOST:PORT, and not as " + addresses);
            }
        }
        EtcdStore store = new EtcdStore(members);
        for (int left = members.length - 1;; left--) {
            try {
                store.post("/v3/kv/range", range(bytes("cf/r/"), null)); // (a member answers if it has a majority)
                return store;
            } catch (StoreException.Unknown silent) {
                if (left == 0) {
                    throw silent;
                }
            }
        }
    }

    // Calls.

    private Http connect(int to) throws IOException {
        String member = members[Math.floorMod(to, members.length)];
        int colon = member.lastIndexOf(':');
        return new Http(member.substring(0, colon), Integer.parseInt(member.substring(colon + 1)), SILENCE);
    }

    /** What a member answers. Where it doesn't, the next call asks the next one. */
    private Map<?, ?> post(String path, Map<String, ?> body) {
        int now = turn;
        MemberConnection link = idle.pollFirst();
        while (link != null && link.turn != now) { // (that of a member that didn't answer)
            link.http.close();
            link = idle.pollFirst();
        }
        Http http = link == null ? null : link.http;
        String why;
        try {
            http = http == null ? connect(now) : http;
            int status = http.post(path, Json.write(body));
            byte[] told = http.body();
            String text = new String(told, 0, Math.min(told.length, 200), StandardCharsets.UTF_8);
            if (status == 200) {
                Map<?, ?> read = (Map<?, ?>) Json.read(told);
                giveBack(http, now);
                return read;
            }
            why = status + " " + text;
            if (isRefused(told)) {
                giveBack(http, now);
                throw new StoreException("etcd refuses it: " + text);
            }
        } catch (IOException | IllegalArgumentException | ClassCastException lost) {
            why = lost.toString();
        }
        if (http != null) {
            http.close();
        }
        turnFrom(now);
        throw new StoreException.Unknown("etcd: " + why, null);
    }

    private static boolean isRefused(byte[] told) {
        try {
            Map<?, ?> said = (Map<?, ?>) Json.read(told);
            return EtcdCodes.isRefused(asLong(said.get("code")), String.valueOf(said.get("message")));
        } catch (IllegalArgumentException | ClassCastException other) {
            return false; // (who stands before etcd says so)
        }
    }

    private synchronized void turnFrom(int from) {
        turn += turn == from ? 1 : 0;
    }

    private void giveBack(Http http, int made) {
        idle.addFirst(new MemberConnection(http, made));
        if (isClosed) {
            close();
        }
    }

    private Map<?, ?> txn(List<?> compares, List<?> success, List<?> failure) {
        return post("/v3/kv/txn", map("compare", compares, "success", success, "failure", failure));
    }

    private static boolean hasSucceeded(Map<?, ?> told) {
        return Boolean.TRUE.equals(told.get("succeeded"));
    }

    /** A key as a range tells it. */
    private static final class Kv {
        final String key;
        final byte[] value;
        final long created, version;

        Kv(Map<?, ?> told) {
            key = new String(decode(told.get("key")), StandardCharsets.UTF_8);
            value = told.get("value") == null ? new byte[0] : decode(told.get("value"));
            created = asLong(told.get("create_revision"));
            version = asLong(told.get("version"));
        }

        String text() {
            return new String(value, StandardCharsets.UTF_8);
        }

        /** The name of the request behind {@code cf/} and a letter. */
        String name() {
            return unquote(key.substring(5));
        }
    }

    private static List<Kv> kvs(Object range) {
        List<Kv> found = new ArrayList<>();
        Object kvs = ((Map<?, ?>) range).get("kvs");
        if (kvs != null) {
            ((List<?>) kvs).forEach(it -> found.add(new Kv((Map<?, ?>) it)));
        }
        return found;
    }

    private static List<Kv> rangeAnswer(Map<?, ?> told, int at) {
        return kvs(((Map<?, ?>) ((List<?>) told.get("responses")).get(at)).get("response_range"));
    }

    /** What stands in a range at one revision, and that one. */
    private static final class Found {
        final List<Kv> kvs = new ArrayList<>();
        long revision;
    }

    /** Reads a range some keys at a time. */
    private Found queryKeys(Map<String, Object> range) {
        Found found = new Found();
        Map<String, Object> asked = new LinkedHashMap<>(range);
        asked.put("limit", MOST_KEYS);
        while (true) {
            Map<?, ?> told = post("/v3/kv/range", asked);
            found.kvs.addAll(kvs(told));
            found.revision = found.revision > 0 ? found.revision : asLong(((Map<?, ?>) told.get("header")).get("revision"));
            if (!Boolean.TRUE.equals(told.get("more"))) {
                return found;
            }
            asked.put("revision", found.revision); // (of a revision any member that knows it has the same answer)
            asked.put("serializable", true);
            asked.put("key", encode(bytes(found.kvs.get(found.kvs.size() - 1).key + "\0")));
        }
    }

    // Requests.

    @Override
    public Opened open(String name, String plan) {
        byte[] key = key('r', name), said = Json.write(map("plan", plan, "opened", now()));
        Opened found = null;
        while (found == null) { // (it may be dropped meanwhile)
            txn(list(ifAbsent(key)), list(put(key, said), put(key('o', name), bytes("0"))), list());
            found = find(name);
        }
        return found;
    }

    @Override
    public Opened find(String name) {
        for (Kv it : queryKeys(range(key('r', name), null)).kvs) {
            try {
                return new Opened(name, (String) ((Map<?, ?>) Json.read(it.value)).get("plan"), it.created);
            } catch (IllegalArgumentException | ClassCastException fault) {
                throw new StoreException.Broken(name, 0, "its plan can't be read: " + fault.getMessage());
            }
        }
        return null;
    }

    /** Compares whether a request is the one that was opened. */
    private static Map<String, Object> ifPresent(String name, long number) {
        return map("key", encode(key('r', name)), "target", "CREATE", "create_revision", String.valueOf(number));
    }

    /** Whether a request is there no more, by a majority: a member that lags behind may not know it yet. */
    private boolean isDropped(String name, long number) {
        Opened found = find(name);
        return found == null || found.number != number;
    }

    @Override
    public News news(Object mark) {
        // Since a mark any member's answer will do. Of all, a request that a member that lags behind doesn't know yet would seem closed.
        long since = mark == null ? 0 : (Long) mark;
        Map<String, Object> open = range(bytes("cf/o/"), bytes("cf/o0"));
        if (mark != null) {
            open.put("min_mod_revision", String.valueOf(since + 1));
            open.put("serializable", true);
        }
        Found found = queryKeys(open);
        Map<String, Integer> ends = new HashMap<>();
        found.kvs.forEach(it -> ends.put(it.name(), Integer.valueOf(it.text())));
        return new News(ends, Math.max(since, found.revision)); // (a member that lags behind has a lower one)
    }

    @Override
    public boolean end(String name, long number, int at) {
        byte[] key = key('o', name), timers = join(key('t', name), "/");
        Map<?, ?> told = txn(list(ifPresent(name, number), map("key", encode(key), "target", "VALUE", "value", encode(bytes(String.valueOf(at))))),
                list(delete(key, null), delete(timers, endOfRange(timers)), delete(key('g', name), null),
                        put(key('c', name), Json.write(Arrays.asList(now(), at)))), list());
        boolean closes = hasSucceeded(told);
        if (!closes && isDropped(name, number)) {
            throw new StoreException.Gone(name);
        }
        return closes;
    }

    // Words.

    @Override
    public List<Entry> append(Put put) {
        if (put.entries.size() > MOST_ENTRIES) {
            throw new StoreException("etcd takes " + MOST_ENTRIES + " words in a put, not " + put.entries.size());
        }
        byte[] row = rowKey('w', put.request, put.number), payloads = rowKey('p', put.request, put.number), key = placeKey(row, put.at);
        List<Object> puts = new ArrayList<>();
        for (int k = 0; k < put.entries.size(); k++) {
            Entry entry = put.entries.get(k);
            puts.add(put(placeKey(row, put.at + k), bytes(Long.toHexString(entry.word) + " " + Long.toHexString(entry.token))));
        }
        put.payloads.forEach((place, payload) -> puts.add(put(placeKey(payloads, place), payload)));
        puts.add(put(key('o', put.request), bytes(String.valueOf(put.at + put.entries.size()))));
        Map<?, ?> told = txn(list(ifAbsent(key), ifPresent(put.request, put.number)), puts, list(map("request_range", range(key, endOfRange(row)))));
        if (hasSucceeded(told)) {
            return null;
        }
        List<Kv> stands = rangeAnswer(told, 0);
        if (stands.isEmpty()) {
            throw new StoreException.Gone(put.request);
        }
        return entries(put.request, put.at, stands);
    }

    @Override
    public List<Entry> read(String name, long number, int at) {
        // Any member's answer will do: a stale one is a shorter beginning of the row.
        byte[] row = rowKey('w', name, number);
        Map<?, ?> told = txn(list(ifPresent(name, number)),
                list(map("request_range", range(placeKey(row, at), endOfRange(row), "serializable", true))), list());
        if (!hasSucceeded(told)) {
            if (isDropped(name, number)) {
                throw new StoreException.Gone(name);
            }
            return new ArrayList<>();
        }
        return entries(name, at, rangeAnswer(told, 0));
    }

    private static List<Entry> entries(String name, int at, List<Kv> kvs) {
        List<Entry> entries = new ArrayList<>();
        for (Kv it : kvs) {
            String[] pair = it.text().split(" ");
            long word = -1, token = -1;
            try {
                word = pair.length == 2 ? Long.parseUnsignedLong(pair[0], 16) : -1;
                token = pair.length == 2 ? Long.parseUnsignedLong(pair[1], 16) : -1;
            } catch (NumberFormatException none) {
                // It is told as broken.
            }
            Entry.add(entries, name, at, Long.parseLong(it.key.substring(it.key.length() - DIGITS)), word, token, null);
        }
        return entries;
    }

    @Override
    public byte[] payload(String name, long number, int place) {
        List<Kv> found = queryKeys(range(placeKey(rowKey('p', name, number), place), null)).kvs;
        if (found.isEmpty() && isDropped(name, number)) {
            throw new StoreException.Gone(name);
        }
        return found.isEmpty() ? null : found.get(0).value;
    }

    /** By a watch, an answer that goes on. What it says isn't read, but that it says something. */
    @Override
    public void awaitChange(long millis) throws InterruptedException {
        int now = turn;
        try {
            if (watch == null) {
                Http made = connect(now);
                watch = made;
                int status = made.post("/v3/watch", Json.write(map("create_request", range(bytes("cf/w/"), bytes("cf/w0")))));
                if (status != 200) {
                    throw new IOException("a watch is answered " + status);
                }
                made.chunk(new ByteArrayOutputStream());
                return;
            }
            watch.awaitInput(millis);
        } catch (IOException lost) {
            watch.close();
            watch = null;
            turnFrom(now);
            Thread.sleep(Math.min(millis, 50));
        }
    }

    // Sessions and timers.

    @Override
    public void beat(long session) {
        post("/v3/kv/put", map("key", encode(numberedKey('b', session)), "value", ""));
    }

    @Override
    public Map<Long, Long> beats() {
        Map<Long, Long> beats = new HashMap<>();
        Found found = queryKeys(range(bytes("cf/b/"), bytes("cf/b0"), "keys_only", true));
        found.kvs.forEach(it -> beats.put(Long.valueOf(it.key.substring(5), 16), it.version));
        return beats;
    }

    @Override
    public void dropBeat(long session) {
        txn(list(), list(delete(numberedKey('b', session), null), delete(numberedKey('s', session), null)), list());
    }

    @Override
    public void nameSession(long session, String name) {
        post("/v3/kv/put", map("key", encode(numberedKey('s', session)), "value", encode(bytes(name))));
    }

    @Override
    public Map<Long, String> sessionNames(String request, long number) {
        byte[] row = rowKey('n', request, number);
        Map<Long, String> names = new HashMap<>();
        queryKeys(range(row, endOfRange(row))).kvs.forEach(it -> names.put(Long.valueOf(it.key.substring(row.length), 16), it.text()));
        return names;
    }

    @Override
    public double now() {
        return System.currentTimeMillis() / 1000.0;
    }

    @Override
    public void setTimer(Timer timer) {
        byte[] value = Json.write(Arrays.asList(timer.due, encode(timer.payload)));
        byte[] key = placeKey(rowKey('t', timer.request, timer.number), timer.stage);
        if (!hasSucceeded(txn(list(ifPresent(timer.request, timer.number)), list(put(key, value)), list()))) {
            throw new StoreException.Gone(timer.request);
        }
    }

    @Override
    public List<Timer> dueTimers(double now) {
        List<Timer> due = new ArrayList<>();
        for (Kv it : queryKeys(range(bytes("cf/t/"), bytes("cf/t0"), "serializable", true)).kvs) {
            List<?> said = (List<?>) Json.read(it.value);
            double moment = ((Number) said.get(0)).doubleValue();
            if (moment <= now) {
                String[] parts = it.key.substring(5).split("/"); // (without a number where an earlier version has set it)
                long number = parts.length > 2 ? Long.parseLong(parts[1]) : 0;
                due.add(new Timer(unquote(parts[0]), number, Integer.parseInt(parts[parts.length - 1]), moment, decode(said.get(1))));
            }
        }
        due.sort(Comparator.comparingDouble(it -> it.due));
        return due;
    }

    @Override
    public void dropTimer(Timer timer) {
        txn(list(), list(delete(placeKey(rowKey('t', timer.request, timer.number), timer.stage), null),
                delete(placeKey(join(key('t', timer.request), "/"), timer.stage), null)), list());
    }

    @Override
    public void close() {
        isClosed = true;
        for (MemberConnection link = idle.pollFirst(); link != null; link = idle.pollFirst()) {
            link.http.close();
        }
        Http watching = watch;
        if (watching != null) {
            watching.close();
        }
    }

    // Keys and what is asked of them.

    /** {@code IllegalArgumentException} where a name has half of a pair of surrogates. */
    static byte[] key(char kind, String name) {
        StringBuilder key = new StringBuilder("cf/").append(kind).append('/');
        try {
            ByteBuffer letters = StandardCharsets.UTF_8.newEncoder().encode(CharBuffer.wrap(name));
            while (letters.hasRemaining()) {
                int letter = letters.get() & 0xff;
                boolean isPlain = letter < 128 && (Character.isLetterOrDigit(letter) || "_.-~".indexOf(letter) >= 0);
                key.append(isPlain ? String.valueOf((char) letter) : String.format("%%%02X", letter));
            }
        } catch (CharacterCodingException half) {
            throw new IllegalArgumentException("a request's name has half of a pair", half);
        }
        return bytes(key.toString());
    }

    private static String unquote(String text) {
        try {
            return URLDecoder.decode(text, "UTF-8");
        } catch (java.io.UnsupportedEncodingException never) {
            throw new UncheckedIOException(never);
        }
    }

    /** What the keys of a request's words or payloads begin with: another request of the same name has others. */
    private static byte[] rowKey(char kind, String name, long number) {
        return join(key(kind, name), "/" + number + "/");
    }

    private static byte[] numberedKey(char kind, long session) {
        return bytes("cf/" + kind + "/" + String.format("%010x", session));
    }

    private static byte[] placeKey(byte[] row, int at) {
        return join(row, String.format("%0" + DIGITS + "d", at));
    }

    /** The end of the range of all keys that begin so. */
    private static byte[] endOfRange(byte[] prefix) {
        byte[] end = prefix.clone();
        end[end.length - 1]++;
        return end;
    }

    private static Map<String, Object> range(byte[] key, byte[] end, Object... more) {
        Map<String, Object> range = map("key", encode(key));
        if (end != null) {
            range.put("range_end", encode(end));
        }
        range.putAll(map(more));
        return range;
    }

    private static Map<String, Object> put(byte[] key, byte[] value) {
        return map("request_put", map("key", encode(key), "value", encode(value)));
    }

    private static Map<String, Object> delete(byte[] key, byte[] end) {
        return map("request_delete_range", range(key, end));
    }

    private static Map<String, Object> ifAbsent(byte[] key) {
        return map("key", encode(key), "target", "VERSION", "version", 0);
    }

    private static Map<String, Object> map(Object... pairs) {
        Map<String, Object> map = new LinkedHashMap<>();
        for (int k = 0; k < pairs.length; k += 2) {
            map.put((String) pairs[k], pairs[k + 1]);
        }
        return map;
    }

    private static List<Object> list(Object... of) {
        return of.length == 0 ? Collections.emptyList() : Arrays.asList(of);
    }

    private static byte[] bytes(String text) {
        return text.getBytes(StandardCharsets.UTF_8);
    }

    private static byte[] join(byte[] first, String rest) {
        byte[] more = bytes(rest), both = Arrays.copyOf(first, first.length + more.length);
        System.arraycopy(more, 0, both, first.length, more.length);
        return both;
    }

    private static String encode(byte[] data) {
        return Base64.getEncoder().encodeToString(data);
    }

    private static byte[] decode(Object text) {
        return Base64.getDecoder().decode((String) text);
    }

    /** A number of 64 bits, which the gateway writes as a text, and leaves out where it is 0. */
    private static long asLong(Object told) {
        return told == null ? 0 : Long.parseLong(String.valueOf(told));
    }
}
