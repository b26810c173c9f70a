package cf.store;

import cf.internal.Tale;
import cf.internal.Teller;
import cf.internal.Words;
import cf.service.RequestHistory;
import java.util.ArrayList;
import java.util.LinkedHashMap;
import java.util.List;
import java.util.Map;
import java.util.Objects;
import java.util.TreeMap;
import java.util.stream.Collectors;
import java.util.stream.IntStream;

/** The history of a request in a store, by its row. A row has no times. */
public final class StoredHistory extends RequestHistory {
    private final String name;
    private final long[] words;
    private final int[] rows;
    private final int attached;
    private final long[] sessions;
    private final String[] names, values, errors;
    private final Map<Long, String> named;

    /** Of each stage its name; of each place what its payload says, one place more than there are words; and what sessions are called. */
    StoredHistory(String name, int[] rows, int attached, long[] words, long[] sessions, String[] names, String[] values, String[] errors,
            Map<Long, String> named) {
        this.name = name;
        this.words = words;
        this.rows = rows;
        this.attached = attached;
        this.sessions = sessions;
        this.names = names;
        this.values = values;
        this.errors = errors;
        this.named = named;
    }

    /** Where several sessions had one number, each has its own records there. */
    @Override
    public String account() {
        String account = super.account();
        Map<Integer, Long> first = new TreeMap<>();
        boolean isShared = false;
        for (int k = 0; k < words.length; k++) {
            isShared |= first.computeIfAbsent(Words.caller(words[k]), toSession(sessions[k])) != sessions[k];
        }
        return isShared ? splitBySession(account) : account;
    }

    private static java.util.function.Function<Integer, Long> toSession(long session) {
        return who -> session;
    }

    @SuppressWarnings("unchecked")
    private String splitBySession(String account) {
        Map<String, Object> read = (Map<String, Object>) Json.read(account.getBytes(java.nio.charset.StandardCharsets.UTF_8));
        List<Object> callers = new ArrayList<>();
        for (Object records : (List<?>) read.get("callers")) {
            Map<Long, List<Object>> each = new LinkedHashMap<>();
            List<Object> own = new ArrayList<>();
            for (Object record : (List<?>) records) {
                List<?> it = (List<?>) record;
                if ("did".equals(it.get(0))) {
                    own = each.computeIfAbsent(sessions[Math.toIntExact((Long) it.get(1)) - 1], session -> new ArrayList<>());
                }
                own.add(record);
            }
            Map<String, Object> shared = new LinkedHashMap<>();
            shared.put("sessions", new ArrayList<Object>(each.values()));
            callers.add(each.size() > 1 ? shared : records);
        }
        read.put("callers", callers);
        return new String(Json.write(read), java.nio.charset.StandardCharsets.UTF_8);
    }

    /** @hidden */
    @Override
    protected Teller teller() {
        return new Teller(name, words) {
            @Override
            protected Tale newTale(Tale.Format kind) {
                return new Tale(rows, attached, words);
            }

            @Override
            protected void addLabels(Tale tale) {
                tale.setLabels(Tale.Label.STAGES, names);
                tale.setLabels(Tale.Label.CALLERS, callerNames(words));
                tale.setLabels(Tale.Label.VALUES, values);
                tale.setLabels(Tale.Label.ERRORS, errors);
            }

            /** All the names that sessions of its number have, or the number. */
            @Override
            protected String callerName(int who) {
                String names = IntStream.range(0, words.length).filter(k -> Words.caller(words[k]) == who).mapToObj(k -> named.get(sessions[k]))
                        .filter(Objects::nonNull).distinct().collect(Collectors.joining(" or "));
                return names.isEmpty() ? "session " + who : names;
            }
        };
    }
}
