package cf.testing;

import cf.store.Store;
import cf.store.StoreException;
import java.util.ArrayList;
import java.util.HashMap;
import java.util.HashSet;
import java.util.LinkedHashMap;
import java.util.List;
import java.util.Map;
import java.util.Set;

/** Rows in memory. One thread of a run goes on at a time. */
final class Memory implements Store {
    private final Map<String, Opened> opened = new LinkedHashMap<>();
    private final Map<String, List<Entry>> rows = new HashMap<>();
    private final Map<String, Map<Integer, byte[]>> payloads = new HashMap<>();
    private final Set<String> closed = new HashSet<>();
    private final Map<Long, Long> beats = new HashMap<>();
    private final Map<Long, String> named = new HashMap<>();

    @Override
    public Opened open(String name, String plan) {
        if (!opened.containsKey(name)) {
            opened.put(name, new Opened(name, plan, opened.size() + 1));
            rows.put(name, new ArrayList<>());
            payloads.put(name, new HashMap<>());
        }
        return opened.get(name);
    }

    @Override
    public Opened find(String name) {
        return opened.get(name);
    }

    private List<Entry> row(String name, long number) {
        Opened found = opened.get(name);
        if (found == null || found.number() != number) {
            throw new StoreException.Gone(name);
        }
        return rows.get(name);
    }

    @Override
    public List<Entry> append(Put put) {
        List<Entry> row = row(put.request(), put.number());
        if (row.size() > put.at()) {
            return new ArrayList<>(row.subList(put.at(), row.size()));
        }
        row.addAll(put.entries());
        payloads.get(put.request()).putAll(put.payloads());
        if (put.opens()) {
            closed.remove(put.request());
        }
        return null;
    }

    @Override
    public List<Entry> read(String name, long number, int at) {
        List<Entry> row = row(name, number);
        return new ArrayList<>(row.subList(Math.min(at, row.size()), row.size()));
    }

    /** All that stands. */
    List<Entry> read(String name) {
        return rows.get(name);
    }

    @Override
    public byte[] payload(String name, long number, int place) {
        row(name, number);
        return payloads.get(name).get(place);
    }

    boolean isOpen(String name) {
        return opened.containsKey(name) && !closed.contains(name);
    }

    @Override
    public News news(Object mark) {
        Map<String, Integer> ends = new LinkedHashMap<>();
        opened.keySet().stream().filter(this::isOpen).forEach(name -> ends.put(name, rows.get(name).size()));
        return new News(ends, null);
    }

    @Override
    public void awaitChange(long millis) {}

    @Override
    public boolean end(String name, long number, int at) {
        return row(name, number).size() == at && closed.add(name);
    }

    @Override
    public void beat(long session) {
        beats.merge(session, 1L, Long::sum);
    }

    @Override
    public Map<Long, Long> beats() {
        return new HashMap<>(beats);
    }

    @Override
    public void dropBeat(long session) {
        beats.remove(session);
    }

    @Override
    public void nameSession(long session, String name) {
        named.put(session, name);
    }

    @Override
    public Map<Long, String> sessionNames(String request, long number) {
        return new HashMap<>(named);
    }

    @Override
    public double now() {
        return 0;
    }

    // Timers: WorldRows has them.

    @Override
    public void setTimer(Timer timer) {}

    @Override
    public List<Timer> dueTimers(double now) {
        return new ArrayList<>();
    }

    @Override
    public void dropTimer(Timer timer) {}

    @Override
    public void close() {}
}
