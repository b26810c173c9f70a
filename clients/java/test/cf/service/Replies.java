package cf.service;

import cf.internal.Layout;
import cf.internal.Words;
import java.util.ArrayList;
import java.util.Arrays;
import java.util.List;

/**
 * What a machine answers and tells that does the words of a history once more, in the words of accounts and reports. The library tells
 * histories by its graph, so its telling is compared with this, and this with what the machine of the request told at the time.
 */
public final class Replies {
    private final History history;
    private final long[] words;
    private final int[] answers, numbers;
    private final Arguments[] arguments;
    /** Behind each event the stages that it settled, in their order. */
    private final List<List<Told>> told = new ArrayList<>();
    /** Stages that are settled before anything was done. */
    private final boolean[] isFirst;
    /** What each stage ends in, as what is told; null where it hasn't. */
    private final Told[] ends;

    /** A stage with its outcome, or one that a function is called with: with the number of its value, -1 for null, or its failure's code. */
    private static final class Told {
        final int stage, kind, number;
        final boolean isWrapped;

        Told(int stage, int kind, boolean isWrapped, int number) {
            this.stage = stage;
            this.kind = kind;
            this.isWrapped = isWrapped;
            this.number = number;
        }

        int[] witness() {
            return new int[] {stage, kind, isWrapped ? 1 : 0, number};
        }
    }

    /** What a claimed function is called with. */
    private static final class Arguments {
        final int kind, first, second;
        final Told source;

        Arguments(Machine machine) {
            int outcome = Layout.ARGS_OUTCOME, of = machine.replyArgument(outcome + Layout.OUTCOME_KIND);
            kind = machine.replyArgument(Layout.ARGS_KIND);
            first = value(machine, Layout.ARGS_FIRST);
            second = value(machine, Layout.ARGS_SECOND);
            source = new Told(0, of, machine.replyArgument(outcome + Layout.OUTCOME_WRAPPED) != 0,
                    of == Layout.VALUE ? value(machine, outcome + Layout.OUTCOME_VALUE) : machine.replyArgument(outcome + Layout.OUTCOME_CODE));
        }

        private static int value(Machine machine, int place) {
            return machine.replyArgument(place + Layout.VALUE_KIND) == Layout.NIL ? -1 : machine.replyArgument(place + Layout.VALUE_NUMBER);
        }

        int[] witness(int stage) {
            return kind == Layout.GOT ? new int[] {stage, kind, source.kind, source.isWrapped ? 1 : 0, source.number, second}
                    : new int[] {stage, kind, 0, 0, first, second};
        }
    }

    private Replies(History history) {
        this.history = history;
        words = history.words();
        answers = new int[words.length];
        numbers = new int[words.length];
        arguments = new Arguments[words.length];
        isFirst = new boolean[history.stages()];
        ends = new Told[history.stages()];
        Machine machine = history.machine();
        int planned = history.stages() - (int) Arrays.stream(words).filter(word -> Words.kind(word) == Words.ATTACH).count();
        for (int k = 0; k < planned; k++) {
            isFirst[k] = machine.isSettled(k);
        }
        for (int k = 0; k < words.length; k++) {
            apply(machine, k);
        }
        for (int k = 0; k < ends.length; k++) {
            ends[k] = machine.isSettled(k) ? told(machine, 0) : null;
        }
        machine.giveBackCore(null);
    }

    private static Told told(Machine machine, int k) {
        return new Told(machine.settledStage(k), machine.settledKind(k), machine.isWrapped(k), machine.settledNumber(k));
    }

    private void apply(Machine machine, int event) {
        machine.apply(words[event], Machine.NOBODY);
        answers[event] = machine.answer();
        numbers[event] = machine.replyNumber();
        arguments[event] = new Arguments(machine);
        List<Told> settled = new ArrayList<>();
        do {
            for (int i = 0; i < machine.settledCount(); i++) {
                if (!isFirst[machine.settledStage(i)]) {
                    settled.add(told(machine, i));
                }
            }
        } while (machine.fetchMore(Machine.NOBODY));
        settled.sort((a, b) -> a.stage - b.stage);
        told.add(settled);
    }

    /** Compares all of it: what the library tells, what a machine answers, and, with {@code -Dcf.witness=true}, what that of the request told. */
    public static void compare(History history) {
        Replies replies = new Replies(history);
        if (history.witness != null) {
            replies.compareWitness();
        }
        Checks.is(history.report(), replies.report());
        String account = history.account();
        for (String part : new String[] {replies.callers(), replies.outcomes()}) {
            if (!account.contains(part)) {
                throw new AssertionError(account + "\n tells otherwise than\n" + part);
            }
        }
    }

    /** Each settled stage was told once, and each claim with what its function was called with. */
    private void compareWitness() {
        int[] claims = new int[ends.length];
        for (int k = 0; k < words.length; k++) {
            if (Words.kind(words[k]) == Words.CLAIM && answers[k] == Layout.GRANTED) {
                claims[Words.stage(words[k])] = k + 1;
            }
        }
        int left = told.stream().mapToInt(List::size).sum();
        boolean[] seen = new boolean[ends.length];
        for (int[] each : history.witness) {
            int stage = each[0];
            boolean same;
            if (each.length == 4) {
                same = !seen[stage] && ends[stage] != null && Arrays.equals(each, ends[stage].witness());
                seen[stage] = true;
                left -= isFirst[stage] ? 0 : 1;
            } else {
                same = claims[stage] > 0 && Arrays.equals(each, arguments[claims[stage] - 1].witness(stage));
                claims[stage] = 0;
            }
            if (!same) {
                throw new AssertionError("it was told otherwise: " + Arrays.toString(each) + "\n" + history);
            }
        }
        if (left != 0) {
            throw new AssertionError(left + " stages weren't told\n" + history);
        }
    }

    /** What the account says that callers were told. */
    private String callers() {
        List<List<String>> callers = new ArrayList<>();
        for (int k = 0; k < words.length; k++) {
            while (callers.size() <= Words.caller(words[k])) {
                callers.add(new ArrayList<>());
            }
            List<String> own = callers.get(Words.caller(words[k]));
            own.add("[\"did\"," + (k + 1) + ",\"" + words[k] + "\",\"" + reply(k) + "\"]");
            for (Told each : told.get(k)) {
                own.add("[\"outcome\"," + (k + 1) + "," + each.stage + ",\"" + outcome(each) + "\"]");
            }
        }
        List<String> records = new ArrayList<>();
        callers.forEach(own -> records.add("[" + String.join(",", own) + "]"));
        return ",\"callers\":[" + String.join(",", records) + "],";
    }

    private String outcomes() {
        List<String> outcomes = new ArrayList<>();
        for (Told end : ends) {
            outcomes.add("\"" + outcome(end) + "\"");
        }
        return ",\"outcomes\":[" + String.join(",", outcomes) + "],";
    }

    private String report() {
        StringBuilder text = new StringBuilder();
        for (int k = 0; k < words.length; k++) {
            text.append(reply(k)).append('\n');
        }
        for (int k = 0; k < ends.length; k++) {
            text.append("stage ").append(k).append(' ').append(outcome(ends[k])).append('\n');
        }
        return text.toString();
    }

    private String reply(int event) {
        int answer = answers[event];
        switch (Words.kind(words[event])) {
            case Words.CLAIM:
                return answer != 0 ? new String[] {"", "settled", "taken", "notready"}[answer] : granted(arguments[event]);
            case Words.FINISH:
                return new String[] {"won", "late", "notyours"}[answer];
            case Words.ATTACH:
                return answer != 0 ? "stagesfull" : "attached " + numbers[event];
            default:
                return answer != 0 ? "true" : "false";
        }
    }

    private static String granted(Arguments arguments) {
        switch (arguments.kind) {
            case Layout.NO_ARGS:
                return "granted none";
            case Layout.ONE:
                return "granted one " + value(arguments.first);
            case Layout.TWO:
                return "granted two " + value(arguments.first) + " " + value(arguments.second);
            default:
                return "granted got " + outcome(arguments.source);
        }
    }

    private static String value(int number) {
        return number < 0 ? "nil" : "" + number;
    }

    private static String outcome(Told end) {
        if (end == null) {
            return "pending";
        }
        String cause;
        switch (end.kind) {
            case Layout.VALUE:
                return "value " + value(end.number);
            case Layout.THROWN:
                cause = "thrown " + Integer.toUnsignedString(end.number);
                break;
            case Layout.CANCELLED:
                cause = "cancelled";
                break;
            case Layout.TIMED_OUT:
                cause = "timeout" + code(end.number);
                break;
            default:
                cause = "badanswer" + code(end.number);
        }
        return "fault " + cause + (end.isWrapped ? " wrapped" : " raw");
    }

    private static String code(int number) {
        return number == 0 ? "" : " " + Integer.toUnsignedString(number);
    }
}
