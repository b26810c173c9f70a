package cf.store;

import cf.internal.Form;
import cf.internal.Freed;
import cf.internal.Full;
import cf.internal.Host;
import cf.internal.Layout;
import cf.internal.Text;
import cf.internal.Words;
import cf.service.Describe;
import cf.service.RequestFullException;
import java.util.ArrayList;
import java.util.Arrays;
import java.util.Collections;
import java.util.HashMap;
import java.util.List;
import java.util.Map;
import java.util.Set;
import java.util.TreeMap;
import java.util.TreeSet;
import java.util.concurrent.Callable;
import java.util.concurrent.CancellationException;
import java.util.concurrent.TimeoutException;
import java.util.function.LongConsumer;

/** What this session knows of one request's row, and how it puts words there. One thread at a time has it: its request's lock. */
final class RowView {
    private static final int MOST_STAGES = 4096, ROOM = 8;
    /** How many words one put has, where many are wanted. */
    static final int MOST_AT_ONCE = 32;
    /** How long the store may be silent, in nanoseconds. */
    static final long PATIENCE = 60_000_000_000L;

    final Store.Opened opened;
    final long session;
    private final Store store;
    private final Host host;
    private final NativeRow row;
    private final List<StageState> stages = new ArrayList<>();
    private final int plannedStages;
    private int room, wordCount, settledStages;
    /** The stages that were settled since {@link #takeSettled}. */
    private List<Integer> newlySettled = new ArrayList<>();
    /** The words, each with the session that has put it. */
    private long[] words = new long[16], sessions = new long[16];
    private final StoredPlan plan;
    /** A flow, and how many of its first steps are the plan's. */
    private StoredFlow alikeFlow;
    private int alikeSteps;
    /** Promises that composing stages were linked to, with the places of those words. */
    final TreeMap<Integer, Integer> links = new TreeMap<>();
    /** Composing stages that were settled, and whose promises may be waited for by nobody. */
    final TreeSet<Integer> unlinked = new TreeSet<>();
    /** The replies to this session's claims that were granted unknown to it, as it found when it read the row. */
    final TreeMap<Integer, NativeRow.Reply> foundClaims = new TreeMap<>();
    /** The reply to each claim that was granted: the arguments of its stage's function. */
    final Map<Integer, NativeRow.Reply> claimReplies = new HashMap<>();
    /** The tokens of words that may stand, and the places where they would. */
    private final Map<Long, Integer> doubtfulPlaces = new HashMap<>();
    private final Map<Integer, byte[]> ownPayloads = new HashMap<>();
    /** Called with each other session whose word came since the row was first read; and where others have failed a stage that this session runs. */
    LongConsumer onOtherSession = session -> {};
    Runnable onTakenForGone = () -> {};
    private boolean isRead;

    /** A word that is wanted, with its payload. A value or an exception is named by the word's own place, so the word says only that there is one. */
    static final class WantedWord {
        final long word;
        final byte[] payload;

        WantedWord(long word, byte[] payload) {
            this.word = word;
            this.payload = payload;
        }
    }

    /** The result of a stage's function: a value or null, an exception, or a link. */
    static final class Finish {
        final int stage;
        final byte[] payload;
        private final int kind, to;

        private Finish(int stage, byte[] payload, int kind, int to) {
            this.stage = stage;
            this.payload = payload;
            this.kind = kind;
            this.to = to;
        }

        static Finish withValue(int stage, byte[] value) {
            return new Finish(stage, value, Layout.GIVE, 0);
        }

        static Finish withException(int stage, byte[] thrown) {
            return new Finish(stage, thrown, Layout.THROW, 0);
        }

        /** A composing stage is linked to its promise, which the stage stands for that the payload names. */
        static Finish withLink(int stage, byte[] given, int promise) {
            return new Finish(stage, given, Layout.LINK, promise);
        }

        boolean hasException() {
            return kind == Layout.THROW;
        }

        /** The number of the answer, where the finish stands at this place. */
        private int answerNumber(int place) {
            return kind == Layout.LINK ? to : payload == null ? -1 : place;
        }
    }

    /** An entry that was taken in: its word and its reply. */
    static final class DoneEntry {
        final long word;
        final NativeRow.Reply reply;

        DoneEntry(long word, NativeRow.Reply reply) {
            this.word = word;
            this.reply = reply;
        }
    }

    /** Decides by the view which words to put, if any. It is asked again each time others' words came first. */
    interface Decision {
        List<WantedWord> decide(RowView view);
    }

    /** What a view remembers of a stage. */
    private static final class StageState {
        final Form form;
        final int[] sources;
        /** Its spec, where that was read; the place of the word that attached it, or 0; and that word's payload, where it came along. */
        StoredPlan.StageSpec spec;
        final int attachPlace;
        byte[] payload;
        /** Once it is settled: its outcome, and the place where it was. */
        NativeRow.Outcome outcome;
        int settledPlace;

        StageState(Form form, int[] of, StoredPlan.StageSpec spec, int attached) {
            this.form = form;
            this.sources = of;
            this.spec = spec;
            this.attachPlace = attached;
        }
    }

    RowView(Store store, Store.Opened opened, long session, Host host) {
        this.store = store;
        this.host = host;
        this.opened = opened;
        this.session = session;
        plan = new StoredPlan(opened.plan, opened.name);
        plannedStages = plan.forms.size();
        for (int k = 0; k < plannedStages; k++) {
            stages.add(new StageState(plan.forms.get(k), plan.sources.get(k), plan.specs.get(k), 0));
        }
        room = Math.min(ROOM, MOST_STAGES - plannedStages);
        row = openRow();
    }

    private NativeRow openRow() {
        // By chance: where two have one session, their tokens differ all the same; and half of all are left at least.
        int first = (int) host.randomBits(NativeRow.COUNT_BITS - 1);
        while (true) {
            try {
                return new NativeRow(plan.rows, room, first, session);
            } catch (NativeRow.Refusal refused) {
                if (refused.code != Layout.ROOM || room == 0) {
                    throw new StoreException.Broken(opened.name, 0, "its plan can't be read: " + refused.getMessage());
                }
                room /= 2;
            }
        }
    }

    /** Frees the memory outside the heap once this owner can't be reached any more. */
    void freeWith(Object owner) {
        new Freed(owner, row::close);
        Freed.freeSome();
    }

    int wordCount() {
        return wordCount;
    }

    int stageCount() {
        return stages.size();
    }

    /** Whether the request is a flow's. */
    boolean isPlanned() {
        return plannedStages > 0;
    }

    boolean isSettled(int stage) {
        return stages.get(stage).settledPlace > 0;
    }

    /**
     * The words that cancel the open ones of the first so many stages, the last one first, so that no function becomes ready for the end of a cancelled
     * source. They are as many as one put takes.
     */
    List<WantedWord> wordsThatCancel(int count) {
        List<WantedWord> wanted = new ArrayList<>();
        for (int stage = count - 1; stage >= 0 && wanted.size() < MOST_AT_ONCE; stage--) {
            if (!isSettled(stage)) {
                wanted.add(new WantedWord(Words.cancel(0, stage), null));
            }
        }
        return wanted;
    }

    Form form(int stage) {
        return stages.get(stage).form;
    }

    int[] sources(int stage) {
        return stages.get(stage).sources;
    }

    /** The lowest ready stage from this one on, or -1. */
    int lowestReady(int from) {
        return row.lowestReady(from);
    }

    /** The word of a finish, with its payload, or null where this session hasn't the stage. If the stage was settled meanwhile, it is late. */
    WantedWord finishWord(Finish finish) {
        long word = row.finishWord(finish.stage, finish.kind, finish.answerNumber(wordCount + 1));
        return word < 0 ? null : new WantedWord(word, finish.payload);
    }

    /** The lowest stage from a number on that this session could claim next, behind a finish if that isn't null; or -1. */
    int nextClaim(Finish finish, int from) {
        return finish == null ? row.nextClaim(-1, 0, 0, from) : row.nextClaim(finish.stage, finish.kind, finish.answerNumber(wordCount + 1), from);
    }

    /** The stages whose claim is open, each with the session to which it was granted: also those that were settled since. */
    private Map<Integer, Long> claims() {
        Map<Integer, Long> claims = new TreeMap<>();
        for (NativeRow.OpenClaim claim = row.nextOpenClaim(0); claim != null; claim = row.nextOpenClaim(claim.stage + 1)) {
            claims.put(claim.stage, claim.session);
        }
        return claims;
    }

    /** The stages whose function runs somewhere: claimed and not settled, each with the session that has it. */
    Map<Integer, Long> openClaims() {
        Map<Integer, Long> open = claims();
        open.keySet().removeIf(this::isSettled);
        return open;
    }

    /** Whether this session has a claim of a stage that isn't finished. */
    boolean hasClaim(int stage) {
        NativeRow.OpenClaim claim = row.nextOpenClaim(stage);
        return claim != null && claim.stage == stage && claim.session == session;
    }

    /** Whether any session has one. */
    boolean isClaimed(int stage) {
        NativeRow.OpenClaim claim = row.nextOpenClaim(stage);
        return claim != null && claim.stage == stage;
    }

    /** The word that fails this stage for a session that is gone, or null where that doesn't have it. */
    WantedWord abandonWord(long gone, int stage, byte[] payload) {
        long word = row.abandonWord(gone, stage);
        return word >= 0 && Words.stage(word) == stage ? new WantedWord(word, payload) : null;
    }

    /** Whether there is work in it without a new word, also for a service that runs no functions. */
    boolean hasWork(boolean runs) {
        return !links.isEmpty() || !unlinked.isEmpty() || !foundClaims.isEmpty() || runs && row.lowestReady(0) >= 0;
    }

    /** Whether all stages are settled, and no claim is open but for those of sessions that are gone. */
    boolean isDone(java.util.function.LongPredicate isGone) {
        return settledStages == stages.size() && claims().values().stream().allMatch(isGone::test);
    }

    /** The stages that were settled since the last call. */
    List<Integer> takeSettled() {
        List<Integer> taken = newlySettled;
        newlySettled = taken.isEmpty() ? taken : new ArrayList<>();
        return taken;
    }

    // Reading and putting.

    /** Takes in the words that others have put. */
    void catchUp() {
        retryingForAMinute(host, () -> store.read(opened.name, opened.number, wordCount)).forEach(this::takeIn);
        isRead = true;
    }

    /** Puts the words that are decided on behind all others, and takes them in; their entries, if there are any. */
    List<DoneEntry> act(Decision decision) {
        return act(decision, false);
    }

    /** The same; whether these words open the request again, where it is closed. */
    List<DoneEntry> act(Decision decision, boolean opens) {
        while (true) {
            List<WantedWord> wanted = decision.decide(this);
            if (wanted.isEmpty()) {
                return new ArrayList<>();
            }
            int attached = 0;
            for (WantedWord it : wanted) {
                attached += Words.kind(it.word) == Words.ATTACH ? 1 : 0;
            }
            makeRoom(attached);
            Store.Put put = planPut(wanted, opens);
            List<Store.Entry> stands;
            try {
                stands = append(put);
            } catch (RuntimeException | Error fault) {
                leaveInDoubt(put);
                throw fault;
            }
            stands = stands == null ? put.entries : stands;
            boolean landed = row.landed(stands.get(0).word, stands.get(0).token);
            if (landed) {
                ownPayloads.putAll(put.payloads);
            }
            List<DoneEntry> done = new ArrayList<>();
            stands.forEach(entry -> done.add(takeIn(entry)));
            if (landed) {
                List<DoneEntry> own = done.subList(0, put.entries.size());
                for (int k = 0; k < own.size(); k++) {
                    host.noteAnswer(opened.name, put.at + 1 + k, own.get(k).word, own.get(k).reply.answer);
                }
                return own;
            }
        }
    }

    /** Puts until an answer comes. Where one is missing, and the same put is refused then, the row is read: the put may stand there. */
    private List<Store.Entry> append(Store.Put put) {
        boolean[] isMissing = {false};
        return retryingForAMinute(host, () -> {
            try {
                return store.append(put);
            } catch (StoreException.Unknown silent) {
                isMissing[0] = true;
                throw silent;
            } catch (StoreException refused) {
                if (!isMissing[0] || refused instanceof StoreException.Broken) {
                    throw refused;
                }
                List<Store.Entry> stands = store.read(opened.name, opened.number, put.at);
                if (stands.isEmpty()) { // (what had no answer may still come)
                    throw new StoreException.Unknown(refused.getMessage(), refused);
                }
                return stands;
            }
        });
    }

    /** Puts a word within a transaction, and lets that stand. Whether it does: where the place was taken, it doesn't. {@code Unknown} if it may. */
    boolean actWithin(Store.Transaction transaction, WantedWord wanted) {
        Store.Put put = planPut(Collections.singletonList(wanted), false);
        try {
            if (!transaction.append(put)) {
                row.giveUpPut();
                return false;
            }
            transaction.commit();
        } catch (RuntimeException | Error fault) {
            leaveInDoubt(put);
            throw fault;
        }
        row.landed(put.entries.get(0).word, put.entries.get(0).token);
        ownPayloads.putAll(put.payloads);
        DoneEntry done = takeIn(put.entries.get(0));
        host.noteAnswer(opened.name, put.at + 1, done.word, done.reply.answer);
        return true;
    }

    /** Gives up a put that may stand, and remembers it until the words at its places are read. */
    private void leaveInDoubt(Store.Put put) {
        row.giveUpPut();
        for (int k = 0; k < put.entries.size(); k++) {
            doubtfulPlaces.put(put.entries.get(k).token, put.at + 1 + k);
        }
    }

    private Store.Put planPut(List<WantedWord> wanted, boolean opens) {
        int who = row.callerNumber();
        long[] words = new long[wanted.size()];
        Map<Integer, byte[]> payloads = new HashMap<>();
        for (int k = 0; k < words.length; k++) {
            int place = wordCount + 1 + k;
            byte[] payload = wanted.get(k).payload;
            words[k] = Words.withCaller(who, payload == null ? wanted.get(k).word : withPlace(wanted.get(k).word, place));
            if (payload != null) {
                payloads.put(place, payload);
            }
        }
        long first = row.planPut(words);
        List<Store.Entry> entries = new ArrayList<>();
        for (int k = 0; k < words.length; k++) {
            entries.add(new Store.Entry(words[k], first + k));
        }
        return new Store.Put(opened.name, opened.number, wordCount, entries, payloads, opens);
    }

    /** A word whose value or failure is named by this place. */
    private static long withPlace(long word, int place) {
        int stage = Words.stage(word);
        if (Words.isLinking(word)) {
            return word;
        }
        switch (Words.kind(word)) {
            case Words.COMPLETE:
                return Words.complete(0, stage, place);
            case Words.FAIL:
                return Words.fail(0, stage, place);
            case Words.FAIL_AS:
                return Words.failAs(0, stage, Words.tag(word), place);
            case Words.FINISH:
                return Words.isThrowing(word) ? Words.finishThrowing(0, stage, place) : Words.finish(0, stage, place);
            default:
                return word;
        }
    }

    /** Takes in the entry that stands behind all others. */
    private DoneEntry takeIn(Store.Entry entry) {
        int place = wordCount + 1;
        NativeRow.Reply reply;
        long by = entry.token >>> NativeRow.COUNT_BITS;
        boolean failsOwn = by != session && Words.kind(entry.word) == Words.FAIL && hasClaim(Words.stage(entry.word));
        try {
            if (Words.kind(entry.word) == Words.ATTACH) {
                makeRoom(1);
            }
            reply = row.takeIn(entry.word, entry.token);
        } catch (NativeRow.Refusal refused) {
            if (refused.code == Layout.NO_MEMORY) {
                throw new OutOfMemoryError("a view of a row");
            }
            throw new StoreException.Broken(opened.name, place, "the word " + entry.word + " can't be done: " + refused.getMessage());
        }
        keepWord(entry);
        if (by != session && isRead) {
            onOtherSession.accept(by);
        }
        if (failsOwn && reply.answer != 0) {
            onTakenForGone.run();
        }
        boolean isOwn = doubtfulPlaces.remove(entry.token) != null;
        if (isOwn) {
            host.noteAnswer(opened.name, place, entry.word, reply.answer);
        }
        switch (Words.kind(entry.word)) {
            case Words.ATTACH:
                if (reply.answer == 0) {
                    stages.add(stageOf(entry, place));
                }
                break;
            case Words.CLAIM:
                if (reply.answer == 0) {
                    claimReplies.put(Words.stage(entry.word), reply);
                    if (isOwn) {
                        foundClaims.put(Words.stage(entry.word), reply);
                    }
                }
                break;
            case Words.FINISH:
                if (reply.answer == 0 && Words.isLinking(entry.word)) {
                    links.put(Words.lowBits(entry.word), place);
                }
                break;
            default:
        }
        doubtfulPlaces.values().removeIf(its -> its <= place); // (a word that was to stand here, and doesn't, never will)
        row.forEachSettled((outcome, stage) -> settle(stage, outcome, place));
        return new DoneEntry(entry.word, reply);
    }

    private void keepWord(Store.Entry entry) {
        if (wordCount == words.length) {
            words = Arrays.copyOf(words, 2 * wordCount);
            sessions = Arrays.copyOf(sessions, 2 * wordCount);
        }
        words[wordCount] = entry.word;
        sessions[wordCount++] = entry.token >>> NativeRow.COUNT_BITS;
    }

    private static StageState stageOf(Store.Entry entry, int place) {
        int low = Words.lowBits(entry.word), first = Words.stage(entry.word), second = low >>> 12 & 0xfff;
        int[] of = Arrays.copyOf(new int[] {first, second}, Words.tag(entry.word));
        StageState made = new StageState(Form.byNumber(low >>> 24), of, null, place);
        made.payload = entry.payload;
        return made;
    }

    private void settle(int number, NativeRow.Outcome outcome, int place) {
        StageState stage = stages.get(number);
        if (stage.settledPlace > 0) {
            return;
        }
        stage.outcome = outcome;
        stage.settledPlace = place;
        settledStages++;
        newlySettled.add(number);
        if (stage.form.composes) {
            unlinked.add(number);
        }
    }

    private void makeRoom(int least) {
        int many = stages.size();
        if (many + least <= plannedStages + room) {
            return;
        }
        for (int more = Math.min(3 * many + least, MOST_STAGES - plannedStages - room); more >= least; more /= 2) {
            if (row.grow(more)) {
                room += more;
                return;
            }
        }
        throw new RequestFullException(new Full(opened.name));
    }

    // What the row's numbers stand for.

    /** What is said of a stage: its name, and its function's name and version. */
    StoredPlan.StageSpec spec(int number) {
        StageState stage = stages.get(number);
        if (stage.spec == null) {
            stage.spec = readPayload(stage.attachPlace, stage.payload, payload -> new StoredPlan.StageSpec((Map<?, ?>) Json.read(payload), number));
            stage.payload = null;
        }
        return stage.spec;
    }

    /** The stage whose function a further try calls, or -1 where a stage isn't one. */
    int retriedStage(int stage) {
        int first = -1;
        for (int again = spec(stage).retriedStage; again >= 0; again = spec(again).retriedStage) {
            first = again;
        }
        return first;
    }

    /** The first attached stage of this form and these sources of which as much is said and which isn't left out, or -1. */
    int findAttached(Form form, int[] of, StoredPlan.StageSpec spec, Set<Integer> leftOut) {
        for (int stage = plannedStages; stage < stages.size(); stage++) {
            if (stages.get(stage).form == form && Arrays.equals(stages.get(stage).sources, of) && !leftOut.contains(stage)
                    && spec(stage).isAlike(spec)) {
                return stage;
            }
        }
        return -1;
    }

    /** Whether the steps of a flow up to this one are those of the plan that the request was begun with. */
    boolean hasSteps(StoredFlow flow, int last) {
        alikeSteps = flow == alikeFlow ? alikeSteps : 0;
        alikeFlow = flow;
        while (alikeSteps <= last && flow.hasStep(alikeSteps, plan)) {
            alikeSteps++;
        }
        return alikeSteps > last;
    }

    /** What of the context of the place where a stage was attached goes along with its function. */
    Map<String, Object> context(int stage) {
        return stage < plannedStages ? plan.context : spec(stage).context;
    }

    /** All that is seen, to be told. What payloads say is read later. */
    Facts facts() {
        int[] attached = stages.subList(plannedStages, stages.size()).stream().mapToInt(it -> it.attachPlace).toArray();
        return new Facts(this, Arrays.copyOf(words, wordCount), Arrays.copyOf(sessions, wordCount), attached);
    }

    /** What was seen of a row until some moment, which any thread may read. */
    static final class Facts {
        private final Store store;
        private final Host host;
        private final Store.Opened opened;
        private final StoredPlan plan;
        private final long[] words, sessions;
        private final int[] attachPlaces;

        Facts(RowView view, long[] words, long[] sessions, int[] attached) {
            store = view.store;
            host = view.host;
            opened = view.opened;
            plan = view.plan;
            this.words = words;
            this.sessions = sessions;
            this.attachPlaces = attached;
        }

        /** What went along from the context of the place where the request was begun. */
        Map<String, Object> context() {
            return plan.context;
        }

        /** It reads all payloads. */
        StoredHistory history(Describe describe) {
            String[] values = new String[words.length + 1], errors = new String[words.length + 1];
            Arrays.fill(values, "null");
            Arrays.fill(errors, "");
            for (int k = 0; k < words.length; k++) {
                int kind = Words.kind(words[k]), tag = Words.tag(words[k]);
                if (kind == Words.FAIL || Words.isThrowing(words[k]) || kind == Words.FAIL_AS && Words.lowBits(words[k]) != 0) {
                    RemoteException thrown = RemoteException.fromMap(read(k + 1));
                    errors[k + 1] = Text.describe(describe, describe == Describe.ALL ? thrown.getMessage() : thrown); // (without its class)
                } else if ((kind == Words.COMPLETE || kind == Words.FINISH) && tag == 1) {
                    values[k + 1] = Text.describe(describe, read(k + 1));
                }
            }
            String[] names = new String[plan.specs.size() + attachPlaces.length];
            for (int k = 0; k < names.length; k++) {
                int stage = k, place = k < plan.specs.size() ? 0 : attachPlaces[k - plan.specs.size()];
                names[k] = place == 0 ? plan.specs.get(k).name : new StoredPlan.StageSpec((Map<?, ?>) read(place), stage).name;
            }
            Map<Long, String> named = retryingForAMinute(host, () -> store.sessionNames(opened.name, opened.number));
            return new StoredHistory(opened.name, plan.rows, attachPlaces.length, words, sessions, names, values, errors, named);
        }

        private Object read(int place) {
            byte[] payload = retryingForAMinute(host, () -> store.payload(opened.name, opened.number, place));
            try {
                return Json.read(payload);
            } catch (IllegalArgumentException | NullPointerException fault) {
                throw new StoreException.Broken(opened.name, place, "its payload can't be read: " + fault.getMessage());
            }
        }
    }

    private interface PayloadReader<T> {
        T read(byte[] payload);
    }

    private <T> T readPayload(int place, PayloadReader<T> reading) {
        return readPayload(place, null, reading);
    }

    /** Reads the payload of a place, which the store is asked for where it isn't known. */
    private <T> T readPayload(int place, byte[] known, PayloadReader<T> reading) {
        return readPayload(opened, place, known == null ? payload(place) : known, reading);
    }

    private static <T> T readPayload(Store.Opened opened, int place, byte[] payload, PayloadReader<T> reading) {
        try {
            return reading.read(requirePayload(opened, place, payload));
        } catch (IllegalArgumentException | ClassCastException | NullPointerException fault) {
            throw new StoreException.Broken(opened.name, place, "its payload can't be read: " + fault.getMessage());
        }
    }

    private static byte[] requirePayload(Store.Opened opened, int place, byte[] payload) {
        if (payload == null) {
            throw new StoreException.Broken(opened.name, place, "no payload is there, and a word names it");
        }
        return payload;
    }

    private byte[] payload(int place) {
        byte[] mine = ownPayloads.get(place);
        return requirePayload(opened, place, mine != null ? mine : retryingForAMinute(host, () -> store.payload(opened.name, opened.number, place)));
    }

    /** The value of a place, 0 for null. */
    Object value(int place) {
        return place == 0 ? null : readPayload(place, Json::read);
    }

    /** The exception of an outcome, or null where it is a value. */
    Throwable fault(NativeRow.Outcome outcome) {
        int place = outcome.isValue() ? 0 : payloadPlace(outcome);
        return place == 0 ? fault(outcome.kind, null) : readPayload(place, payload -> fault(outcome.kind, payload));
    }

    /** The place of the payload that is read of an outcome, or 0: what a bad answer's says isn't asked for. */
    private static int payloadPlace(NativeRow.Outcome outcome) {
        return outcome.kind == Layout.BAD_ANSWER ? 0 : outcome.place;
    }

    /** The exception of an outcome of a kind, by its payload if it has one; or null where it is a value. */
    private static Throwable fault(int kind, byte[] payload) {
        switch (kind) {
            case Layout.VALUE:
                return null;
            case Layout.THROWN:
                return RemoteException.fromMap(Json.read(payload));
            case Layout.CANCELLED:
                return new CancellationException();
            case Layout.TIMED_OUT:
                return new TimeoutException(payload == null ? null : RemoteException.fromMap(Json.read(payload)).text());
            default:
                return new IllegalStateException("a stage waits for one for which it can't");
        }
    }

    /** How a settled stage ended. */
    Ending ending(int stage) {
        NativeRow.Outcome outcome = outcome(stage);
        int place = payloadPlace(outcome);
        return new Ending(this, outcome.kind, place, ownPayloads.get(place));
    }

    /** How a stage ended. Any thread may read it, which asks the store at most once for each of both. */
    static final class Ending {
        private final Store store;
        private final Store.Opened opened;
        private final int kind, place;
        private final byte[] payload;

        Ending(RowView view, int kind, int place, byte[] payload) {
            store = view.store;
            opened = view.opened;
            this.kind = kind;
            this.place = place;
            this.payload = payload;
        }

        /** Its exception, or null where it is a value. */
        Throwable fault() {
            return kind == Layout.VALUE || place == 0 ? RowView.fault(kind, null) : read(given -> RowView.fault(kind, given));
        }

        /** Its value. */
        Object value() {
            return place == 0 ? null : read(Json::read);
        }

        private <T> T read(PayloadReader<T> reading) {
            return RowView.readPayload(opened, place, payload == null ? store.payload(opened.name, opened.number, place) : payload, reading);
        }
    }

    NativeRow.Outcome outcome(int stage) {
        return stages.get(stage).outcome;
    }

    // Relays of composing stages.

    /**
     * The next word that has a promise of a composing stage end as the stage does that its function gave, or cancels it where nobody waits for it;
     * or null.
     */
    WantedWord relayWord() {
        for (int stage : new ArrayList<>(unlinked)) {
            int promise = Math.max(spec(stage).promise, -1);
            if (promise >= 0 && !links.containsKey(promise) && !isSettled(promise)) {
                return new WantedWord(Words.cancel(0, promise), null);
            }
            unlinked.remove(stage);
        }
        for (Map.Entry<Integer, Integer> link : new ArrayList<>(links.entrySet())) {
            int promise = link.getKey();
            if (isSettled(promise)) {
                links.remove(promise);
                continue;
            }
            int given = readPayload(link.getValue(), payload -> {
                int stage = Math.toIntExact((Long) ((Map<?, ?>) Json.read(payload)).get("stage"));
                if (stage < 0 || stage >= stages.size()) {
                    throw new IllegalArgumentException("there is no stage " + stage);
                }
                return stage;
            });
            if (isSettled(given)) {
                return copyingWord(promise, given);
            }
        }
        return null;
    }

    /** The word that settles a promise as a stage is. */
    private WantedWord copyingWord(int promise, int given) {
        NativeRow.Outcome outcome = outcome(given);
        byte[] payload = outcome.place == 0 ? null : payload(outcome.place);
        switch (outcome.kind) {
            case Layout.VALUE:
                return new WantedWord(Words.complete(0, promise, Words.NIL), payload);
            case Layout.THROWN:
                return new WantedWord(Words.fail(0, promise, 0), payload);
            case Layout.CANCELLED:
                return outcome.isWrapped ? new WantedWord(Words.fail(0, promise, 0), Json.write(new RemoteException("CancelledError", "").toMap()))
                        : new WantedWord(Words.cancel(0, promise), null);
            default:
                return new WantedWord(Words.failAs(0, promise, outcome.kind == Layout.TIMED_OUT ? Words.TIMED_OUT : Words.BAD_ANSWER, 0), payload);
        }
    }

    /** Makes a call again for up to a minute while the store is silent, and gives its answer. The call may be made again whatever became of it. */
    static <T> T retryingForAMinute(Host host, Callable<T> call) {
        long until = host.nanoTime() + PATIENCE;
        for (long pause = 10;; pause = Math.min(pause * 2, 500)) {
            try {
                return call.call();
            } catch (StoreException.Unknown silent) {
                if (host.nanoTime() - until > 0) {
                    throw silent;
                }
                try {
                    host.sleep(pause);
                } catch (InterruptedException interrupted) {
                    Thread.currentThread().interrupt();
                    throw silent;
                }
            } catch (RuntimeException fault) {
                throw fault;
            } catch (Exception fault) {
                throw new StoreException(fault.getMessage(), fault);
            }
        }
    }
}
